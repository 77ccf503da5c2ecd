// What is drawn on a canvas is drawn again when the colours change: by the theme, and for a print, which is black on
// white in either.

const redraws = new Set();

export function onLook(redraw) {
  redraws.add(redraw);
  return () => redraws.delete(redraw);
}

function redrawAll() {
  for (const redraw of redraws) redraw();
}

function printing(begins) {
  document.documentElement.classList.toggle('paper', begins);
  redrawAll();
}

export function watchLook() {
  matchMedia('(prefers-color-scheme: dark)').addEventListener('change', redrawAll);
  window.addEventListener('resize', redrawAll);
  window.addEventListener('beforeprint', () => printing(true));
  window.addEventListener('afterprint', () => printing(false));
}

// The colour of this name in style/, as it is now.
export function colour(name) {
  return getComputedStyle(document.documentElement).getPropertyValue(name).trim();
}

// Sets the canvas to its size in pixels of the device, and gives what to draw with in pixels of the page, and how many
// of the first make one of the second.
export function cleared(canvas, width, height, mostRatio) {
  const ratio = Math.min(window.devicePixelRatio || 1, mostRatio);
  canvas.width = Math.max(1, Math.round(width * ratio));
  canvas.height = Math.max(1, Math.round(height * ratio));
  const pen = canvas.getContext('2d');
  pen.setTransform(ratio, 0, 0, ratio, 0, 0);
  return { pen, ratio };
}
