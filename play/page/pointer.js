// The mouse and touch: chips that are dragged to a column, and what is pointed at.
import {$, SIZES} from './basics.js';
import {S, isBefore} from './state.js';
import {columnWidth, drawPointer} from './diagram.js';
import {drawSaid} from './said.js';

const FAR = 6; // pixels from which a press is a drag
let drag = null, isDropped = false, pointed = null;

/** Lights an operation and what its home had applied before it; none takes the light away. */
function light(name, of) {
  $('sheet').classList.toggle('lit', Boolean(name));
  document.querySelectorAll('[data-op]').forEach((each) => {
    const names = each.dataset.op.split(' ');
    each.classList.toggle('hit', Boolean(name) && names.includes(name));
    each.classList.toggle('past', Boolean(name) && names.some((one) => one && isBefore(one, name)));
  });
  drawSaid(name, of?.dataset.step);
  $('hint').innerHTML = '';
  if (of?.matches('.way')) drawPointer(of);
}
function point(of) {
  if (of !== pointed) light(of?.dataset.op.split(' ')[0] || undefined, of);
  pointed = of;
}
/** After a drawing nothing is pointed at: by moves alone is what lies below a mouse that rests. */
export function forget() {
  pointed = null;
  $('sheet').classList.remove('lit');
}
export const isDragging = () => drag !== null;

function columnAt(x, y) {
  const {top, bottom, right} = $('stage').getBoundingClientRect();
  const at = Math.floor((x - $('sheet').getBoundingClientRect().left - SIZES.GUTTER) / columnWidth());
  return x < right && y > top && y < bottom && at >= 0 && at < S.world.config.sites ? at : null;
}
function showTarget(at) {
  const {style} = $('target');
  style.display = at === null ? 'none' : 'block';
  style.left = `${SIZES.GUTTER + (at || 0) * columnWidth()}px`;
  style.width = `${columnWidth()}px`;
}
function move(event) {
  if (!drag) return point(event.target.closest?.('[data-op]'));
  if (!drag.ghost) {
    if (Math.hypot(event.clientX - drag.x, event.clientY - drag.y) < FAR) return undefined;
    drag.ghost = document.body.appendChild(drag.of.cloneNode(true));
    drag.ghost.classList.add('ghost');
    drag.ghost.removeAttribute('data-key');
  }
  drag.ghost.style.left = `${event.clientX - 20}px`;
  drag.ghost.style.top = `${event.clientY - 11}px`;
  return showTarget(columnAt(event.clientX, event.clientY));
}
/** Ends a drag; the message comes to the column below, if there is one. */
export function drop(event, deliver) {
  if (!drag) return;
  const {of, ghost} = drag;
  drag = null;
  if (!ghost) return;
  ghost.remove();
  showTarget(null);
  isDropped = true;
  const at = event.type === 'pointerup' ? columnAt(event.clientX, event.clientY) : null;
  if (at !== null) deliver(Number(of.dataset.msg), at);
}
/** Whether a click is only the end of a drag. */
export function wasDropped() {
  const was = isDropped;
  isDropped = false;
  return was;
}
export function listen(deliver) {
  document.addEventListener('pointerdown', (event) => {
    const of = event.target.closest('.chip[data-msg]');
    isDropped = false;
    if (of && !event.button) drag = {of, x: event.clientX, y: event.clientY, ghost: null};
    if (event.pointerType === 'touch' && !of) point(event.target.closest('[data-op]'));
  });
  document.addEventListener('pointermove', move);
  document.addEventListener('pointerup', (event) => drop(event, deliver));
  document.addEventListener('pointercancel', (event) => drop(event, deliver));
  document.addEventListener('focusin', (event) => {
    if (!S.isDrawing && event.target.matches('[data-op]:focus-visible')) point(event.target);
  });
}
