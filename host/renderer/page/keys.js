// The keyboard.
const here = () => catalogue.shown.indexOf(player.note);

// Moves to a row, which has the focus then.
function moveTo(index) {
  const last = Math.min(catalogue.shown.length, MOST_ROWS) - 1;
  if (last < 0) return;
  const to = Math.max(0, Math.min(last, index));
  select(to, false);
  bringIntoView(to);
  const row = table.rows.find((each) => each.note === player.note);
  if (row) row.element.focus({ preventScroll: true });
}

const KEYS = {
  ArrowDown: () => moveTo(here() + 1),
  ArrowUp: () => moveTo(here() - 1),
  Home: () => moveTo(0),
  End: () => moveTo(Infinity),
  ' ': () => toggle(),
  '/': () => { byId('search').focus(); byId('search').select(); },
  s: () => byId('spectra').click(),
};

// Whether the element that has the focus needs the key itself.
function isTaken(target, key) {
  if (target.matches('input:not([type=checkbox]), select, audio')) return true;
  return key === ' ' && target.matches('button, input, a');
}

// From the search, enter and the arrow go on to the rows.
function inSearch(key) {
  if (key === 'Enter' || key === 'ArrowDown') moveTo(0);
  else if (key === 'Escape') byId('search').blur();
  else return false;
  return true;
}

function onKey(event) {
  const { key, target } = event;
  if (event.ctrlKey || event.metaKey || event.altKey || event.isComposing) return;
  if (target === byId('search') && inSearch(key)) { event.preventDefault(); return; }
  if (isTaken(target, key) || !KEYS[key]) return;
  event.preventDefault();
  KEYS[key]();
}
