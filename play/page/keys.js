// The keys, as the last tab lists them.
import {$} from './basics.js';
import {S, appliedAt, changed, deliveries} from './state.js';
import {act, closeBooks, crash, play, redo, travel, undo} from './program.js';
import {VERBS, setVerb, submit} from './form.js';
import {areOpen, hideHistories, openHistories} from './histories.js';
import {drop, isDragging} from './pointer.js';

const PRESSED = {
  u: undo, U: redo, ' ': () => play(), a: () => openHistories(), k: () => closeBooks(), x: () => crash(S.site),
  ArrowLeft: () => travel(() => S.current - 1), ArrowRight: () => travel(() => S.current + 1),
  Home: () => travel(0), End: () => travel(() => S.world.steps.length), '?': () => $('keys').click(),
  n: () => act(() => deliveries(S.site).slice(0, 1)), y: () => act(() => appliedAt(S.site).slice(0, 1)),
};
function escape(event, isField) {
  if (isDragging()) drop(event);
  else if (isField && !event.target.closest('#over')) event.target.blur();
  else if (areOpen()) hideHistories();
}
/** What a key means outside of fields. */
function meaning(key) {
  const verb = VERBS.find(([, each]) => each === key);
  if (/^\d$/.test(key) && Number(key) < S.world.config.sites) return () => {
    S.site = Number(key);
    changed(true);
  };
  return verb ? () => setVerb(verb[0]) : PRESSED[key];
}
/** Whether a key is left to what has the focus. */
function isTheirs(event, isField) {
  const on = event.target;
  if (event.ctrlKey || event.metaKey || event.altKey || isField || document.querySelector('dialog[open]')) return true;
  if (event.key.startsWith('Arrow') && on.matches('[type=range]')) return true;
  return event.key === ' ' && on.matches('button,[type=checkbox]');
}
function press(event, putAside) {
  const on = event.target, isField = on.matches('input:not([type=range]):not([type=checkbox]),textarea,select');
  if ((event.ctrlKey || event.metaKey) && event.key.toLowerCase() === 'z' && !isField) {
    event.preventDefault();
    return event.shiftKey ? redo() : undo();
  }
  if (event.key === 'Escape') return escape(event, isField);
  if (event.key === 'Enter' && on.matches('#act select')) {
    event.preventDefault();
    return submit();
  }
  if (isTheirs(event, isField)) return undefined;
  if (event.key === 'Delete' && on.matches('.chip.way, .chip.aside')) return putAside(on);
  if ((event.key === 'Enter' || event.key === ' ') && on.matches('[role=button]')) {
    event.preventDefault();
    return on.click();
  }
  const work = meaning(event.key);
  if (!work) return undefined;
  event.preventDefault();
  return work();
}
export const listen = (putAside) => document.addEventListener('keydown', (event) => press(event, putAside));
