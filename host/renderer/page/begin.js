// The controls, and the beginning once the page is there; where its list is not, the table without a script stays.
function turnSpectra() {
  isSpectral = !isSpectral;
  byId('spectra').setAttribute('aria-pressed', isSpectral);
  document.querySelector('#head .picture').textContent = isSpectral ? 'Spectrogram' : 'Waveform';
  if (player.note) showNote(player.note);
  drawPictures();
}

function listenToControls() {
  byId('controls').addEventListener('submit', (event) => event.preventDefault());
  for (const id of ['search', 'kind', 'sort', 'first']) byId(id).addEventListener('input', chosenAnew);
  byId('down').addEventListener('click', () => { turn(byId('down')); chosenAnew(); });
  byId('spectra').addEventListener('click', turnSpectra);
  for (const button of document.querySelectorAll('#head button')) button.addEventListener('click', () => sortBy(button.dataset.sort));
}

const turn = (button) => button.setAttribute('aria-pressed', button.getAttribute('aria-pressed') !== 'true');

// A second time turns the order around.
function sortBy(by) {
  if (byId('sort').value === by) turn(byId('down'));
  byId('sort').value = by;
  chosenAnew();
}

function chosenAnew() {
  showChosen();
  const top = byId('rows').getBoundingClientRect().top;
  if (top < 0) { scrollBy(0, top - byId('head').offsetHeight); drawRows(true); }
}

function begin() {
  takePiece();
  listenToPlayer();
  listenToControls();
  byId('sum').textContent = summed();
  showChosen();
  addEventListener('scroll', () => drawRows(false), { passive: true });
  addEventListener('resize', layOut);
  document.addEventListener('keydown', onKey);
  select(0, false);
}

document.addEventListener('DOMContentLoaded', () => {
  load('index-list.js', () => { document.documentElement.className = ''; });
});
