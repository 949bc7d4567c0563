// What the other files share: elements, texts, names of operations, and command lines.

export const $ = (id) => document.getElementById(id);
export const SIZES = {GUTTER: 30, ROW: 37, TOP: 20, MARK: 15}; // pixels of the diagram

const ESCAPED = {'&': '&amp;', '<': '&lt;', '>': '&gt;', '"': '&quot;'};
export const escaped = (text) => String(text).replace(/[&<>"]/g, (char) => ESCAPED[char]);

/** The first of some names, as text. */
export const listed = (names, most = 3) => names.slice(0, most).join(', ') + (names.length > most ? ' and more' : '');

/** A value as the program writes it: compact, with the keys of each object in order. */
export const sorted = (value) => JSON.stringify(value, (_, each) =>
  each && typeof each === 'object' && !Array.isArray(each) ? Object.fromEntries(Object.entries(each).sort()) : each);

/** A command's line. The value is a text in JSON. */
export const lineOf = (verb, value, site) => '{' + [[verb, value], ['site', site]].sort()
  .map(([key, each]) => `"${key}":${each}`).join(',') + '}';

export const deliverLine = (message, site) => lineOf('deliver', message, site);
export const applyLine = (name, site) => lineOf('apply', JSON.stringify(name), site);

/* names: B0.3 is the third blue operation of site 0, R1 the first red one of all */
export const number = (name) => Number(name.split(name[0] === 'R' ? 'R' : '.')[1]);
export const colour = (name) => ({R: 'red', B: 'blue'})[name[0]] || 'token';
export const maker = (name) => name[0] === 'R' ? 'R' : name.slice(1).split('.')[0];
export const nameOf = (who, n) => who === 'R' ? `R${n}` : `B${who}.${n}`;

const ring = (x, y, tone) => `<circle cx="${x}" cy="${y}" r="5.5" fill="var(--bg)" stroke="${tone}" stroke-width="2"/>`;
const dot = (x, y, tone) => `<circle cx="${x}" cy="${y}" r="3.2" fill="${tone}"/>`;
const cross = (x, y) => `M${x - 5},${y - 5}l10,10m0,-10l-10,10`;
const SHAPES = {
  '●': (x, y, tone) => `<circle cx="${x}" cy="${y}" r="6.5" fill="${tone}"/>`,
  '○': ring,
  '◉': (x, y, tone) => `${ring(x, y, tone)}<circle cx="${x}" cy="${y}" r="2.6" fill="${tone}"/>`,
  '◆': (x, y, tone) => `<path d="M${x},${y - 8}l8,8l-8,8l-8,-8z" fill="${tone}"/>`,
  '✕': (x, y, tone) => `<path d="${cross(x, y)}" stroke="${tone}" stroke-width="2.2" fill="none"/>`,
};
/** A step's mark in SVG; a question's is a dot. */
export const shape = (mark, x, y, tone) => (SHAPES[mark] || dot)(x, y, tone);
