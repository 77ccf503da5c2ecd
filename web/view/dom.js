// Elements, made without markup: what a file holds is only ever text.

export function element(name, parts = {}, ...children) {
  const made = document.createElement(name);
  for (const [key, value] of Object.entries(parts)) setPart(made, key, value);
  made.append(...children.filter((child) => child !== null));
  return made;
}

function setPart(made, key, value) {
  if (value === null || value === undefined || value === false) return;
  if (key === 'text') made.textContent = value;
  else if (key === 'test') made.dataset.test = value;
  else if (key.startsWith('on')) made.addEventListener(key.slice(2), value);
  else made.setAttribute(key, value === true ? '' : value);
}

export function button(text, onclick, parts = {}) {
  return element('button', { type: 'button', text, onclick, ...parts });
}

// Text that is heard and not seen.
export function unseen(text) {
  return element('span', { class: 'unseen', text });
}

// Writes only what is new, so that nothing is announced or laid out twice.
export function setText(place, text) {
  if (place.textContent !== text) place.textContent = text;
}

let namesGiven = 0;

export function newName(stem) {
  namesGiven += 1;
  return `${stem}-${namesGiven}`;
}
