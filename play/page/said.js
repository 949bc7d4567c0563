// What was said: of the step at hand, or of the operation that is pointed at.
import {$, colour, escaped, listed, nameOf, sorted} from './basics.js';
import {S, described, fold, past, waits} from './state.js';

function statement(rows) {
  const body = rows.map(([at, name, kind, moved, isGone, balance]) => `<tr><td class="n">${at}</td>
    <td class="${isGone ? 'gone' : ''}"><b class="${colour(name)}">${name}</b> ${kind}</td>
    <td class="n">${moved}</td><td class="n">${balance}</td></tr>`).join('');
  return `<table><tr><th></th><th>operation</th><th>moved</th><th>balance</th></tr>${body}</table>`;
}
function spoken(step) {
  const [, did, answered] = step.words.match(/^site \d+: (.*?) -> ([^]*)$/) || [0, step.words, ''];
  const {rows} = step.reply, reply = rows ? `{"rows":[${rows.length} rows]}` : sorted(step.reply);
  const lacks = step.waits?.length ? ` Not applied here: ${listed(step.waits, 5)}.` : step.hint ? ` ${step.hint}` : '';
  return `<div class="q">→ ${escaped(sorted({...step.event, site: step.site}))}</div><div class="a ${step.reply.refused
    ? 'refused' : ''}">← ${escaped(reply)}</div><p class="w">Site ${step.site}: ${escaped(did)}. <b>${
    escaped(answered.slice(0, 1).toUpperCase() + answered.slice(1))}.</b>${lacks}</p>${rows ? statement(rows) : ''}${
    step.fault ? `<p class="w wrong">${escaped(step.fault)}</p>` : ''}`;
}
function whereIs(name, site, sent) {
  const place = site.list.indexOf(name) + 1;
  if (place) return `applied, as number ${place}${site.gone[name] ? ', and cancelled' : ''}`;
  const lacks = waits(site, name);
  if (site.held.has(name)) return `held: ${lacks.length ? `waits for ${listed(lacks)}` : 'ready'}`;
  return sent.some((message) => message.what === name) ? 'on the way' : 'not made yet';
}
function operation(name) {
  const known = S.world.operations[name], {sites, sent} = fold();
  if (!known) return '';
  const after = Object.entries(past(name)).map(([who, n]) => `<b class="${who === 'R' ? 'red' : 'blue'}">${
    nameOf(who, 1)}${n > 1 ? `–${nameOf(who, n)}` : ''}</b>`).join(', ');
  const where = sites.map((site, at) => `<tr><td>site ${at}</td><td>${whereIs(name, site, sent)}</td></tr>`);
  const order = name[0] === 'R' ? 'red: in one order with all red ones' : 'blue: commutes with all';
  return `<p class="w"><b class="${colour(name)}">${name}</b> ${escaped(described(name))}, made by site ${known.home};
    ${order}.</p><p>After: ${after || 'nothing'}</p><table>${where.join('')}</table>
    <div class="q">shadow ${escaped(sorted(known))}</div>`;
}
function beginning() {
  const begins = S.config.accounts.slice(0, 4).map(([who, cents]) => `${who} begins with ${cents}`).join(', ');
  return `<p class="w">${escaped(begins)}${S.config.accounts.length > 4 ? ' and so on' : ''} at each of ${
    S.config.sites} sites, and site 0 has the token.</p><p class="dim">Whatever is done sends messages. They lie below
    the columns: click one, or drag it to a site. They may come in any order, twice, or never.</p>`;
}
export function drawSaid(name, at) {
  const step = S.world.steps[at ?? S.current - 1];
  const atEnd = S.world.error && S.current === S.world.steps.length ? S.world.words.join('\n') : null;
  const said = at === undefined ? S.note ?? atEnd : null;
  if (name && S.world.operations[name]) $('said').innerHTML = operation(name);
  else if (said !== null) $('said').innerHTML = `<pre>${escaped(said)}</pre>${S.next && S.note
    ? '<button data-do="next">Open the next bank</button>' : ''}`;
  else $('said').innerHTML = step ? spoken(step) : beginning();
}
