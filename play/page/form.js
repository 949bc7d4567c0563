// The form: a site, what is done there, and the line that says it, which can be typed as well.
import {$, escaped, lineOf} from './basics.js';
import {S, accounts, described, fold} from './state.js';
import {act} from './program.js';
import COMMANDS from './commands.js';

const MOST_OPTIONS = 40; // accounts in a list to choose from; more are typed, with hints
export const VERBS = Object.entries(COMMANDS).filter(([, {key}]) => key).map(([verb, {key}]) => [verb, key]);
export const isRequest = (verb) => 'moves' in COMMANDS[verb];
const TEXTS = ['account', 'to', 'name']; // fields that are texts in a line

function pick(key, values, named = (each) => each) {
  const chosen = String(S.fields[key] ?? values[0]);
  return `<select data-field="${key}" aria-label="${key}">${values.map((each) => `<option value="${escaped(each)}"${
    String(each) === chosen ? ' selected' : ''}>${escaped(named(each))}</option>`).join('')}</select>`;
}
const typed = (key, value, unit) => `<label><input data-field="${key}" inputmode="numeric" aria-label="${key}" value="${
  escaped(S.fields[key] ?? value)}"><small>${unit}</small></label>`;
const account = (key, names) => names.length <= MOST_OPTIONS ? pick(key, names)
  : `<input data-field="${key}" class="wide" list="names-of-all" aria-label="${key}" value="${
    escaped(S.fields[key] ?? names[0])}">`;
function cancelled(now, here) {
  const isMade = (name) => now.some((site) => site.list.includes(name));
  const known = Object.keys(S.world.operations).filter(isMade).reverse();
  const named = (name) => `${name} ${described(name)}${here.includes(name) ? '' : ' (not here)'}`;
  return known.length ? pick('name', known, named) : '<small>nothing is made yet</small>';
}
/** Each field by its name. */
function fields(sites) {
  const names = accounts(), {sites: now} = fold(), here = now[S.site].list;
  const others = [...sites.filter((at) => at !== S.site), S.site];
  return {
    account: () => account('account', names), to: () => `→ ${account('to', [...names.slice(1), names[0]])}`,
    cents: () => typed('cents', 100, 'cents'), rate: () => typed('rate', 150, '/ 10,000 of the balance'),
    position: () => typed('position', here.length, 'operations applied'), name: () => cancelled(now, here),
    next: () => `<small>to</small>${pick('next', others, (at) => `site ${at}`)}`,
  };
}
const keyed = (text, key) => text.includes(key) ? text.replace(key, `<u>${key}</u>`) : `${text} <u>${key}</u>`;
function siteButtons(sites) {
  const isMany = sites.length > 5;
  const buttons = sites.map((at) => `<button type="button" data-site="${at}" class="${at === S.site ? 'on' : ''}"
    aria-pressed="${at === S.site}" aria-label="site ${at}">${isMany ? '' : 'site '}${at}</button>`);
  return `<div class="sites" role="group" aria-label="the site"><span>at${isMany ? '&nbsp;site' : ''}</span>${
    buttons.join('')}</div>`;
}
function verbButtons() {
  return `<div class="verbs" role="group" aria-label="what is done">${VERBS.map(([verb, key]) => {
    const isOn = verb === 'batch' ? Boolean(S.batch) : S.verb === verb;
    const text = verb === 'batch' && S.batch ? `batch ${S.batch.length}` : verb.replace('asof', 'as of');
    return `<button type="button" data-verb="${verb}" class="${isOn ? 'on' : ''}" aria-pressed="${isOn}">${
      keyed(text, key)}</button>`;
  }).join('')}</div>`;
}
/** What has the focus in the form: a field, or the line. */
const focused = () => {
  const on = document.activeElement;
  return on?.closest('#act') && (on.dataset.field ? `[data-field="${on.dataset.field}"]` : on.id === 'line' && '#line');
};
export function drawForm() {
  const had = focused();
  drawFields();
  const on = $('act').querySelector('.sites .on');
  if (on) on.parentNode.scrollLeft = on.offsetLeft - on.parentNode.offsetLeft - 100;
  if (had) $('act').querySelector(had)?.focus();
}
function drawFields() {
  const sites = Array.from({length: S.world.config.sites}, (_, at) => at), known = fields(sites);
  const isOut = Boolean(S.batch) && !isRequest(S.verb), names = accounts();
  const does = isOut ? 'Not in a batch' : S.batch ? 'Add it' : 'Do it';
  const all = names.length > MOST_OPTIONS ? `<datalist id="names-of-all">${names.map((name) =>
    `<option value="${escaped(name)}">`).join('')}</datalist>` : '';
  $('act').innerHTML = `${siteButtons(sites)}${verbButtons()}<div class="fields">${COMMANDS[S.verb].takes.map((key) =>
    known[key]()).join('')}${all}</div><input id="line" class="mono" aria-label="The line" spellcheck="false">
    <div class="bar tight"><button class="on" id="do">${does} ⏎</button>${S.batch
      ? '<button type="button" id="make">Make the batch</button>' : ''}<span class="gap"></span>
      <button type="button" id="crash" title="end site ${S.site}, and start it from its journal (x)">crash</button>
      <button type="button" id="everything">deliver everything</button></div>`;
  $('do').disabled = isOut;
  $('act').inert = S.text !== null;
  spell();
}
/** What the form says, as the text of a request or a question. */
function asked() {
  const parts = COMMANDS[S.verb].takes.map((key) => {
    const value = document.querySelector(`#act [data-field=${key}]`)?.value.trim() ?? '';
    return TEXTS.includes(key) ? JSON.stringify(value) : value;
  });
  return parts.length > 1 ? `[${parts}]` : parts[0];
}
const batchLine = () => lineOf('batch', `[${S.batch.join(',')}]`, S.site);
export function spell() {
  $('line').value = S.batch ? batchLine() : lineOf(S.verb, asked(), S.site);
}
/** Does what the form says. The focus leaves it, so that the next key is one of the page's. */
export function submit() {
  document.activeElement?.blur();
  if (!S.batch) return act($('line').value);
  S.batch.push(`{"${S.verb}":${asked()}}`);
  return drawForm();
}
export function makeBatch() {
  const line = batchLine();
  S.batch = null;
  act(line);
}
export function setVerb(verb) {
  Object.assign(S, verb === 'batch' ? {batch: S.batch ? null : []} : {verb});
  drawForm();
  const field = document.querySelector('#act .fields input') || document.querySelector('#act .fields select');
  field?.focus();
  field?.select?.();
}
