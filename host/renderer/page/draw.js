// Pictures of notes: the waveform on the scale of full scale, or the spectrogram.
let isSpectral = false;
const FULL = 384;
const MIDDLE = 433;

// The digit of each letter, of 91.
function digit(text, k) {
  const code = text.charCodeAt(k) - 35;
  return code > 57 ? code - 1 : code;
}

// The lowest and the highest step of each column.
function columns(letters) {
  const ends = [];
  for (let k = 0; k + 2 < letters.length; k += 3) {
    const number = (digit(letters, k) * 91 + digit(letters, k + 1)) * 91 + digit(letters, k + 2);
    ends.push([Math.floor(number / 868) - MIDDLE, number % 868 - MIDDLE]);
  }
  return ends;
}

function waveform(letters, name) {
  const ends = columns(letters);
  let [path, hot] = ['', ''];
  ends.forEach(([low, high], k) => {
    const line = `M${k}.5 ${MIDDLE - high - 6}V${MIDDLE - low + 6}`;
    if (Math.max(-low, high) >= FULL) hot += line; else path += line;
  });
  const [top, bottom, right] = [MIDDLE - FULL, MIDDLE + FULL, ends.length];
  return `<svg viewBox="0 0 ${right} ${2 * MIDDLE}" preserveAspectRatio="none" role="img" aria-label="Waveform of ${name}">`
    + `<path class="full" vector-effect="non-scaling-stroke" d="M0 ${top}H${right}M0 ${bottom}H${right}"/>`
    + `<path d="${path}"/><path class="hot" d="${hot}"/></svg>`;
}

function spectrogram(letters, name) {
  return `<img src="data:image/png;base64,${letters}" alt="Spectrogram of ${name}">`;
}

const ESCAPES = { '&': '&amp;', '<': '&lt;', '>': '&gt;', '"': '&quot;' };
const escaped = (text) => text.replace(/[&<>"]/g, (letter) => ESCAPES[letter]);

// Draws a note's picture where it is not drawn yet, and asks for its file where that is wanted.
function draw(place, note, isAsked) {
  const wanted = note && hasSound(note) ? `${isSpectral} ${note.place}` : '';
  if (place.dataset.drawn === wanted) return;
  const letters = wanted && chunkRow(isSpectral ? 'spectra' : 'waves', note, isAsked);
  place.dataset.drawn = letters === null ? '' : wanted;
  const picture = isSpectral ? spectrogram : waveform;
  place.innerHTML = letters ? picture(letters, escaped(note.name)) : '';
}

// Draws the pictures of the rows that are seen, and the player's.
function drawPictures() {
  for (const row of table.rows) if (row.note) draw(row.picture, row.note, true);
  draw(byId('picture'), player.note, true);
}
