// The rows that are seen, and no others, at their places among all that are shown.
const MOST_ROWS = 140000;
const SPARE_ROWS = 6;
const table = { rows: [], timer: 0 };

const rowHeight = () => (matchMedia('(max-width: 60rem)').matches ? 116 : 64);

function newRow() {
  const element = byId('row').content.firstElementChild.cloneNode(true);
  const cell = (name) => element.querySelector(`.${name}`);
  const row = { element, button: cell('play').firstElementChild };
  for (const name of ['name', 'picture', 'pitch', 'peak', 'loudness', 'words']) row[name] = cell(name);
  row.button.addEventListener('click', (event) => { event.stopPropagation(); press(row.index); });
  element.addEventListener('click', () => select(row.index, false));
  byId('rows').append(element);
  return row;
}

const minus = (number) => String(number).replace('-', '−');
const withUnit = (number, unit) => (number === null ? '' : `${minus(number.toFixed(1))} ${unit}`);
const knobs = (note) => ['accent', 'structure', 'brightness', 'damping'].map((knob) => `${knob} ${note[knob]}`).join(', ');

// What is said of a note beside its levels.
function words(note) {
  if (isWarned(note)) return `Warning: ${note.words}`;
  if (hasSound(note)) return knobs(note);
  const number = note.number === null ? '' : ` (number ${note.number})`;
  return `Line ${note.line} ${STATES[note.state]}${number}${note.words && `: ${note.words}`}`;
}

const lasting = (note) => (Number.isNaN(Number(note.seconds)) ? note.seconds : `${note.seconds} s`);
const played = (note) => `${note.kind}, ${note.note}, ${lasting(note)}, ${note.play}`;

function fill(row, index) {
  const note = catalogue.shown[index];
  Object.assign(row, { index, note });
  const { element } = row;
  element.style.transform = `translateY(${index * rowHeight()}px)`;
  element.setAttribute('aria-rowindex', index + 2);
  element.classList.toggle('warned', isWarned(note));
  element.classList.toggle('refused', !hasSound(note));
  row.name.children[0].textContent = note.name;
  row.name.children[1].textContent = hasSound(note) ? played(note) : '';
  row.name.title = note.name;
  row.pitch.textContent = note.note;
  row.peak.textContent = withUnit(note.peak, 'dBFS');
  row.peak.classList.toggle('hot', note.peak > 0);
  row.loudness.textContent = withUnit(note.loudness, 'LUFS');
  row.words.textContent = words(note);
  row.button.hidden = !hasSound(note);
  draw(row.picture, note, false);
  mark(row);
}

// Shows which row is the player's, and whether it plays.
function mark(row) {
  const isHere = row.note === player.note;
  const verb = isHere && player.isPlaying ? 'Stop' : 'Play';
  row.element.tabIndex = isHere ? 0 : -1;
  if (isHere) row.element.setAttribute('aria-current', 'true'); else row.element.removeAttribute('aria-current');
  row.button.textContent = verb === 'Stop' ? '■' : '▶';
  row.button.setAttribute('aria-label', `${verb} ${row.note.name}`);
}

// Fills the rows of the part that is seen.
function drawRows(isAnew) {
  const [height, shown] = [rowHeight(), Math.min(catalogue.shown.length, MOST_ROWS)];
  const above = -byId('rows').getBoundingClientRect().top;
  const count = Math.min(shown, Math.ceil(innerHeight / height) + 2 * SPARE_ROWS);
  const first = Math.max(0, Math.min(shown - count, Math.floor(above / height) - SPARE_ROWS));
  while (table.rows.length < count) table.rows.push(newRow());
  table.rows.forEach((row, k) => {
    // A row keeps its element as the others move by, and so its focus.
    const index = first + ((k - first) % table.rows.length + table.rows.length) % table.rows.length;
    row.element.hidden = index >= first + count;
    if (row.element.hidden) row.note = null;
    else if (isAnew || row.index !== index || !row.note) fill(row, index);
  });
  clearTimeout(table.timer);
  table.timer = setTimeout(settle, isAnew ? 0 : 60);
}

// Once the rows stand still: their pictures, and their order for those who go from one to the next without seeing them.
function settle() {
  drawPictures();
  const rows = table.rows.filter((row) => row.note).sort((a, b) => a.index - b.index);
  const focused = rows.findIndex((row) => row.element.contains(document.activeElement));
  rows.forEach(({ element }, k) => {
    if (k < focused) rows[focused].element.before(element);
    else if (k > focused) byId('rows').append(element);
  });
}

// Shows the notes that are asked for.
function showChosen() {
  const by = byId('sort').value;
  const isDown = byId('down').getAttribute('aria-pressed') === 'true';
  choose({ search: byId('search').value, kind: byId('kind').value, by, isDown, isFirst: byId('first').checked });
  const [shown, all] = [catalogue.shown.length, catalogue.notes.length];
  byId('shown').textContent = shown > MOST_ROWS ? `${shown} of ${all} found, the first ${MOST_ROWS} shown.` : `${shown} of ${all} shown.`;
  byId('table').setAttribute('aria-rowcount', shown + 1);
  for (const button of document.querySelectorAll('#head button')) {
    const header = button.parentElement;
    header.removeAttribute('aria-sort');
    if (button.dataset.sort === by) header.setAttribute('aria-sort', isDown ? 'descending' : 'ascending');
  }
  layOut();
}

// Gives the rows their places, which are others on a narrow screen.
function layOut() {
  byId('rows').style.height = `${Math.min(catalogue.shown.length, MOST_ROWS) * rowHeight()}px`;
  drawRows(true);
}

// Scrolls so that a row is seen, between the head and the player.
function bringIntoView(index) {
  const height = rowHeight();
  const top = byId('rows').getBoundingClientRect().top + index * height;
  const from = byId('head').offsetHeight;
  const to = innerHeight - byId('dock').offsetHeight - height;
  if (top < from) scrollBy(0, top - from); else if (top > to) scrollBy(0, top - to);
  drawRows(false);
}
