// Below the columns: the messages that are on the way to each site, and what it holds.
import {$, colour, escaped, listed} from './basics.js';
import {S, described, isOnTheWay, tone, waits} from './state.js';

function chip(at, n, kind) {
  const message = S.world.messages[n - 1], {token, what} = message, from = S.world.steps[message.step].site;
  const means = token ? `token ${token[0]} for site ${token[1]}` : `${what}, ${described(what)}`;
  const does = {way: `let it come to site ${at}`, came: `let it come to site ${at} once more`, aside: 'put aside'};
  return `<button class="chip ${tone(message)} ${kind}" data-op="${token ? '' : what}" data-msg="${n}" data-to="${at}"
    data-key="${at}:${n}" title="message ${n}: ${escaped(means)}, sent by site ${from}" aria-label="message ${n}: ${
    escaped(means)}, sent by site ${from}: ${does[kind]}">${token ? `◆ ${token[0]}` : what}</button>`;
}
function heldButton(site, at, name) {
  const lacks = waits(site, name), says = lacks.length ? `waits for ${listed(lacks)}` : 'ready: apply it';
  return `<button class="held ${lacks.length ? '' : `ready ${colour(name)}`}" data-apply="${name}" data-at="${at}"
    data-op="${name}" data-key="${at}:${name}" aria-label="${name}, held at site ${at}, ${says}"><b class="${
    colour(name)}">${name}</b><span>${says}</span></button>`;
}
function dock(state, site, at) {
  const way = [], came = [], aside = [];
  state.sent.forEach((message, index) => {
    const n = index + 1;
    if (isOnTheWay(site, at, message, n)) way.push(chip(at, n, 'way'));
    else if (S.aside.has(`${at}:${n}`)) aside.push(chip(at, n, 'aside'));
    else if (site.came[n]) came.push(chip(at, n, 'came'));
  });
  const ready = state.ready[at], order = [...ready, ...[...site.held].filter((name) => !ready.includes(name))];
  const late = came.length || aside.length ? `<h2 class="late">came before, or put aside</h2><div class="chips">${
    came.join('')}${aside.join('')}</div>` : '';
  const all = way.length ? `<button data-all="${at}" aria-label="deliver all to site ${at}">deliver all</button>` : '';
  const apply = ready.length ? `<button data-ready="${at}" aria-label="apply all that is ready at site ${at}">apply all
    ready</button>` : '';
  const held = order.map((name) => heldButton(site, at, name)).join('');
  return `<div class="dock" data-dock="${at}" role="group" aria-label="messages and held operations of site ${at}">
    <div class="halves"><div><h2>on the way <b>${way.length}</b>${all}</h2><div class="chips">${way.join('')}</div>${
    late}</div><div><h2>held <b>${order.length}</b>${apply}</h2>${held}
    </div></div></div>`;
}
export function drawDocks(state) {
  $('docks').innerHTML = S.text === null ? state.sites.map((site, at) => dock(state, site, at)).join('')
    : `<div class="only"><p>These are histories that sites recorded, in the order in which an audit takes them. They can
      be stepped through; nothing is sent here.</p><button data-do="edit">Change and audit them…</button></div>`;
}
/** Puts a message aside, or takes it back. */
export function putAside(chipOf) {
  const {key} = chipOf.dataset;
  if (!S.aside.delete(key)) S.aside.add(key);
}
