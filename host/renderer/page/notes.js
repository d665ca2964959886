'use strict';
document.documentElement.className = 'live';
// The notes of the sheet, and those that are shown, in their order.
const catalogue = { head: {}, notes: [], shown: [] };
const FIELDS = [
  'name', 'state', 'line', 'kind', 'note', 'seconds', 'play', 'accent', 'structure', 'brightness', 'damping',
  'pitch', 'peak', 'loudness', 'words', 'number',
];
const STATES = ['rendered', 'refused', 'failed', 'not rendered'];

const byId = (id) => document.getElementById(id);
const folded = (text) => text.normalize('NFC').toLowerCase();
const hasSound = (note) => note.state === 0;
const isWarned = (note) => hasSound(note) && note.words !== '';

// The list's file calls this with its rows, and the page begins.
catalogue.list = (head, rows) => {
  catalogue.head = head;
  catalogue.notes = rows.map((row, place) => {
    const note = { place, folded: folded(row[0]) };
    FIELDS.forEach((field, k) => { note[field] = row[k]; });
    return note;
  });
  begin();
};

// What a note is sorted by among those of its group; nothing comes last.
let isRanked = false;
function rank() {
  if (isRanked) return;
  const collator = new Intl.Collator(undefined, { numeric: true });
  [...catalogue.notes].sort((a, b) => collator.compare(a.name, b.name)).forEach((note, k) => { note.rank = k; });
  isRanked = true;
}

function group(note) {
  if (!hasSound(note)) return 0;
  return isWarned(note) ? 1 : 2;
}

// The order of two notes.
function order(by, isDown, isFirst) {
  if (by === 'name') rank();
  const field = by === 'name' ? 'rank' : by;
  const sign = isDown ? -1 : 1;
  return (a, b) => {
    if (isFirst && group(a) !== group(b)) return group(a) - group(b);
    const [x, y] = [a[field], b[field]];
    if ((x === null) !== (y === null)) return x === null ? 1 : -1;
    return sign * (x - y) || a.place - b.place;
  };
}

// Shows the notes that are asked for.
function choose({ search, kind, by, isDown, isFirst }) {
  const words = folded(search).split(/\s+/).filter(Boolean);
  const isAsked = (note) => (kind === '' || note.kind.toLowerCase() === kind) && words.every((word) => note.folded.includes(word));
  catalogue.shown = catalogue.notes.filter(isAsked).sort(order(by, isDown, isFirst));
}

// What became of all notes.
function summed() {
  const counts = [0, 0, 0, 0];
  for (const note of catalogue.notes) counts[note.state] += 1;
  const parts = counts.map((count, state) => [count, STATES[state]]).filter(([count], state) => count > 0 || state < 2);
  const warned = catalogue.notes.filter(isWarned).length;
  const sum = `${catalogue.notes.length} notes ordered = ${parts.map((part) => part.join(' ')).join(' + ')}.`;
  return warned > 0 ? `${sum} ${warned} with a warning.` : sum;
}
