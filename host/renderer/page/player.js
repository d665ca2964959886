// One player, which follows the row that is selected.
const player = { note: null, isPlaying: false };

const fileOf = (note) => encodeURIComponent(`${note.name}.${catalogue.head.ending}`);

// The sound of the piece, where there is one.
const piece = () => document.querySelector('#piece audio');

// Takes the piece to the top; of it and a note the one that begins stops the other.
function takePiece() {
  if (!piece()) return;
  byId('live').prepend(byId('piece'));
  piece().addEventListener('play', stop);
}

// Selects a row, and plays it where the one before plays or where it is asked for.
function select(index, isPlayed) {
  const note = catalogue.shown[index];
  if (!note) return;
  const goesOn = isPlayed || player.isPlaying;
  if (note !== player.note) {
    stop();
    player.note = note;
    byId('audio').removeAttribute('src');
    showNote(note);
  }
  if (goesOn && hasSound(note)) start(); else showState();
}

// Shows what the player has.
function showNote(note) {
  byId('title').textContent = note.name;
  byId('detail').textContent = hasSound(note) ? detail(note) : words(note);
  byId('play').disabled = !hasSound(note);
  byId('seek').disabled = !hasSound(note);
  byId('large').hidden = !hasSound(note);
  draw(byId('picture'), note, true);
  showTime();
  document.documentElement.style.setProperty('--dock', `${byId('dock').offsetHeight + 16}px`);
}

function detail(note) {
  const levels = [withUnit(note.peak, 'dBFS'), withUnit(note.loudness, 'LUFS')].filter(Boolean).join(', ');
  const said = [isWarned(note) ? words(note) : '', played(note), levels, knobs(note)];
  if (isSpectral) {
    const top = catalogue.head.rate / 2;
    said.unshift(`Spectrogram from ${Math.round(top / 512)} Hz to ${+(top / 1000).toFixed(1)} kHz in octaves, down to 83 dB below its loudest`);
  }
  return said.filter(Boolean).join('; ');
}

function start() {
  const audio = byId('audio');
  const { note } = player;
  if (!audio.hasAttribute('src')) audio.src = fileOf(note);
  player.isPlaying = true;
  piece()?.pause();
  showState();
  audio.play().catch((error) => {
    // A play that another row or a stop cuts short is no fault.
    if (error.name === 'AbortError' || note !== player.note) return;
    stop();
    byId('detail').textContent = `${note.name}.${catalogue.head.ending} cannot be played: is it beside this page?`;
  });
  requestAnimationFrame(follow);
}

function stop() {
  byId('audio').pause();
  player.isPlaying = false;
  showState();
}

// Plays from the beginning, or stops.
function toggle() {
  if (!player.note) select(0, false);
  if (!player.note || !hasSound(player.note)) return;
  if (player.isPlaying) { stop(); return; }
  start();
}

// What a row's button does.
function press(index) {
  if (catalogue.shown[index] === player.note) toggle(); else { stop(); select(index, true); }
}

function showState() {
  byId('play').textContent = player.isPlaying ? 'Stop' : 'Play';
  for (const row of table.rows) if (row.note) mark(row);
}

function showTime() {
  const [audio, { note }] = [byId('audio'), player];
  const length = audio.duration || Number(note.seconds);
  const part = audio.duration ? audio.currentTime / audio.duration : 0;
  const times = [audio.currentTime, length].filter(Number.isFinite).map((time) => time.toFixed(2));
  byId('time').textContent = hasSound(note) ? `${times.join(' of ')} s` : '';
  byId('seek').value = Math.round(part * 1000);
  byId('seek').setAttribute('aria-valuetext', byId('time').textContent);
  byId('head-line').style.left = `${part * 100}%`;
  byId('head-line').style.display = part > 0 ? 'block' : 'none';
}

// Follows the sound while it plays.
function follow() {
  showTime();
  if (player.isPlaying) requestAnimationFrame(follow);
}

function listenToPlayer() {
  const [audio, seek] = [byId('audio'), byId('seek')];
  audio.addEventListener('ended', () => { stop(); showTime(); });
  audio.addEventListener('durationchange', showTime);
  byId('play').addEventListener('click', toggle);
  seek.addEventListener('input', () => {
    if (audio.duration) audio.currentTime = seek.value / 1000 * audio.duration;
    showTime();
  });
}
