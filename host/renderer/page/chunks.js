// The waveforms and spectrograms, each file of which is loaded once it is looked at.
const MOST_CHUNKS = 64;
const chunks = { waves: new Map(), spectra: new Map() };

// What a file calls with its rows.
const arrival = (kind) => (number, rows) => {
  chunks[kind].set(number, rows);
  drawPictures();
};
catalogue.waves = arrival('waves');
catalogue.spectra = arrival('spectra');

// Loads a script file that lies beside the page.
function load(file, missing) {
  const script = document.createElement('script');
  script.src = file;
  script.onload = () => script.remove();
  script.onerror = () => { script.remove(); missing(); };
  document.head.append(script);
}

// A note's row of a kind: a text where it is there, and nothing where its file is not yet, which may be asked for.
function chunkRow(kind, note, isAsked) {
  const number = Math.floor(note.place / catalogue.head.rows) + 1;
  const rows = chunks[kind].get(number);
  if (rows === undefined && isAsked) {
    chunks[kind].set(number, null);
    load(`index-${kind}-${number}.js`, () => chunks[kind].set(number, []));
    forget(kind);
  }
  if (!rows) return null;
  // The last that were looked at are kept.
  chunks[kind].delete(number);
  chunks[kind].set(number, rows);
  return rows[note.place % catalogue.head.rows] || '';
}

function forget(kind) {
  for (const [number, rows] of chunks[kind]) {
    if (chunks[kind].size <= MOST_CHUNKS) return;
    if (rows !== null) chunks[kind].delete(number);
  }
}
