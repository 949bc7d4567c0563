// The sites' histories as a text that can be changed: audited, drawn, brought to version 2. And what leaves the page.
import {$, escaped} from './basics.js';
import {S, changed} from './state.js';
import {open, post, queue, script, scriptSoFar} from './program.js';

export const hideHistories = () => $('over').classList.remove('open');
export const areOpen = () => $('over').classList.contains('open');
/** The histories of the script up to now, or those that are drawn. */
const histories = (isAnew) => S.text !== null && !isAnew ? S.text : post('/histories', scriptSoFar());
export const openHistories = (isAnew) => queue(async () => {
  $('texts').value = await histories(isAnew);
  $('verdict').textContent = '';
  $('over').classList.add('open');
  $('judge').focus();
});
function select(text, line) {
  const before = text.split('\n').slice(0, line - 1).join('\n').length + (line > 1 ? 1 : 0);
  $('texts').focus();
  $('texts').setSelectionRange(before, before + text.split('\n')[line - 1].length);
  $('texts').scrollTop = Math.max(0, (line - 4) * 17.8);
}
export const judge = () => queue(async () => {
  const text = $('texts').value, found = await post('/world', text);
  const answer = found.verdict ? JSON.stringify(found.verdict) : '';
  const isWrong = found.error || found.verdict?.fault;
  $('verdict').innerHTML = `<b class="${isWrong ? 'wrong' : 'asked'}">${escaped(answer)}</b>\n${
    escaped(found.words.join('\n') || 'There are no entries: an audit of nothing has an order.')}`;
  if (found.verdict) S.done.add(found.verdict.fault || 'order');
  const at = found.bad_line || found.steps.find((step) => step.fault)?.line;
  if (at) select(text, at);
  changed();
});
const oneMore = (_, front, n) => `${front}${Number(n) + 1}`;
/** Three ways to change histories, each as they were. */
const FORGERIES = {
  amount: (text) => text.replace(/("shadow":\{"account":"[^"]*","amount":)(\d+)/, oneMore),
  reply: (text) => text.replace(/("reply":\{"balance":)(\d+)/, oneMore),
  site: (text) => text.split('\n').filter((each) => !each.endsWith('"site":0}')).join('\n'),
};
export function forge(kind) {
  queue(async () => {
    $('texts').value = FORGERIES[kind](await histories());
  });
  return judge();
}
/** The histories in version 2, by the program. */
export const migrate = () => queue(async () => {
  $('texts').value = await post('/migrated', $('texts').value);
  $('verdict').textContent = 'In version 2 a clock lists the sites that it counts, so that there can be sixteen sites.';
});
export function drawHistories() {
  hideHistories();
  open($('texts').value, true);
}
const NAMES = {script: 'play.jsonl', histories: 'play.histories.jsonl', picture: 'play.svg'};
/** Saves the script, its histories or a picture. */
export const save = (kind) => queue(async () => {
  const whole = S.text ?? script(), link = document.createElement('a');
  const isShown = kind === 'script' || S.text !== null && kind === 'histories';
  const text = isShown ? whole : await post(`/${kind}`, whole);
  link.href = URL.createObjectURL(new Blob([text]));
  link.download = S.text !== null && kind === 'script' ? NAMES.histories : NAMES[kind];
  link.click();
  URL.revokeObjectURL(link.href);
});
