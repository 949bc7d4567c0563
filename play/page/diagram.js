// The columns: at the top what each site has, below it what happened, time downwards.
import {$, SIZES, colour, escaped, listed, shape} from './basics.js';
import {FEW, S, accounts, matching, shownAccounts} from './state.js';

const {GUTTER, ROW, TOP, MARK} = SIZES;

/* ---- the columns' heads */
function sums(site, names, apart) {
  return names.map((name) => `<span>${escaped(name)}</span><b>${site.has[name]}</b><span class="token" title="${
    apart.has(name) ? 'not the same at all sites' : ''}">${apart.has(name) ? '≠' : ''}</span>`).join('');
}
function tokenMark(site) {
  if (!site.token) return '';
  const red = site.counts.R || 0, isBehind = site.needed > red;
  return `<span class="token" title="has the token${isBehind ? `, but not the red operations before it: ${red} of ${
    site.needed} applied` : ''}">◆${isBehind ? ` ${red}/${site.needed}` : ''}</span>`;
}
function card(state, site, at, names) {
  const each = state.sites.map((_, k) => site.counts[k] || 0);
  const all = each.join('·'), counts = all.length <= 9 ? all : each.reduce((sum, n) => sum + n, 0);
  const has = names.slice(0, 4).map((name) => `${name} ${site.has[name]}`).join(', ');
  return `<div class="card${at === S.site ? ' mine' : ''}" data-site="${at}" role="group" aria-label="site ${at}${
    site.token ? ', has the token' : ''}: ${escaped(has)}" title="what is done next is done here">
    <h3>site ${at}${tokenMark(site)}</h3><div class="sums">${sums(site, names, state.apart)}</div>
    <div class="clock" title="applied here: blue operations of each site (${all}), and red ones">applied
      <span class="blue">${counts}</span> <span class="red">${site.counts.R || 0}</span></div></div>`;
}
export function drawCards(state) {
  const names = shownAccounts(), all = accounts().length;
  $('stage').style.setProperty('--sums', `${Math.min(4, names.length) * 17}px`);
  $('stage').style.setProperty('--wide', `${GUTTER + 125 * S.world.config.sites}px`);
  $('cards').innerHTML = state.sites.map((site, at) => card(state, site, at, names)).join('');
  $('filter').hidden = all <= FEW;
  $('filter').title = `${matching(accounts()).length} of ${all} accounts, ${names.length} shown`;
}

/* ---- where things are */
export const columnWidth = () => ($('sheet').clientWidth - GUTTER) / S.world.config.sites;
const xOf = (site) => site < S.world.config.sites ? GUTTER + site * columnWidth() + MARK : 12;
/** The row of each step: one below if its site's cell is taken, or what came is sent in it. With the switch on, what is
 * applied as soon as it came has one row, and a mark that changes: over says which step is drawn over which. */
function rows() {
  const found = [], used = new Set(), last = {}, over = {};
  let row = -1, taken = true;
  S.world.steps.forEach((step, at) => {
    const before = last[step.site];
    last[step.site] = at;
    if (S.isAuto && step.reply.applied && step.taken && S.world.steps[before]?.reply.held === step.reply.applied) {
      over[before] = at;
      found[at] = found[before];
      return;
    }
    const after = step.came ? found[S.world.messages[step.came - 1].step] : -1;
    const isOdd = step.site >= S.world.config.sites;
    const isTaken = used.has(step.site) || used.has('odd') || isOdd && used.size;
    if (row < 0 || isTaken || after >= row || step.taken !== taken) {
      row += step.taken === taken ? 1 : 2;
      used.clear();
    }
    taken = step.taken;
    used.add(isOdd ? 'odd' : step.site);
    found[at] = row;
  });
  return [found, over];
}
/** The names of operations that a step is about. */
function about(step) {
  if (step.changed.length) return step.changed;
  const {reply, event} = step, came = step.came && S.world.messages[step.came - 1].what;
  const names = [reply.held, reply.already, event.apply, event.cancel, came];
  return names.filter((each) => each && /^[RB]/.test(each)).slice(0, 1);
}

/* ---- what is drawn behind the marks */
/** The token's band: from where a site takes it to where it passes it. */
function bands(y, end) {
  const found = [];
  let holder = 0, since = 0;
  const band = (to) => holder !== null && found.push(`<path d="M${xOf(holder)},${since}V${to}" stroke="var(--band)"
    stroke-width="10" opacity=".75"/>`);
  S.world.steps.slice(0, S.current).forEach((step, at) => {
    if (!step.taken) return;
    if (step.reply.passed) {
      band(y(at));
      holder = null;
    }
    if (step.reply.taken) [holder, since] = [step.site, y(at)];
  });
  band(end);
  return found;
}
/** The line between what has happened and what hasn't: below what is done in the same row as the next step. */
function cut(place, next) {
  const here = S.world.steps.slice(0, S.current).filter((_, at) => place[at] === place[S.current]);
  const below = new Set(here.map((step) => step.site));
  const path = Array.from({length: S.world.config.sites}, (_, site) =>
    `V${next + (below.has(site) ? ROW - 12 : -12)}H${GUTTER + (site + 1) * columnWidth()}`).join('');
  return `<path d="M0,${next - 12}${path.replace('V', `H${GUTTER}V`)}" stroke="var(--dim)" stroke-dasharray="2 3"
    fill="none"/>`;
}
function lanes(place, y, height) {
  const count = S.world.steps.length;
  const found = Array.from({length: S.world.config.sites}, (_, site) =>
    `<path d="M${xOf(site)},0V${height}" stroke="var(--line)" stroke-width="1.5"/>`);
  const shut = S.world.steps.findIndex((step) => !step.taken);
  if (shut >= 0) found.push(`<rect x="0" y="${y(shut) - ROW}" width="100%" height="${height}" fill="var(--bad)"/>`);
  found.push(...bands(y, S.current < count ? y(S.current) - 12 : height));
  if (S.current < count) found.push(cut(place, y(S.current)));
  return found.join('');
}

/* ---- what is drawn of a step */
const later = (at) => at >= S.current ? ' later' : '';
const fresh = (at, state) => S.isLive && at >= state.before ? ' fresh' : '';
function arrow(step, at, y, state, names) {
  const from = S.world.messages[step.came - 1].step;
  const x1 = xOf(S.world.steps[from].site), y1 = y(from), x2 = xOf(step.site), y2 = y(at);
  const far = Math.hypot(x2 - x1, y2 - y1);
  const path = x1 === x2 ? `Q${x2 + 46},${(y1 + y2) / 2} ${x2 + 6},${y2 - 5}`
    : `L${x2 - 9 * (x2 - x1) / far},${y2 - 9 * (y2 - y1) / far}`;
  const tone = y1 > y2 ? 'wrong' : step.colour;
  const dashes = step.late && !fresh(at, state) ? ' stroke-dasharray=".02 .015"' : '';
  return `<path class="arrow${later(at)}${fresh(at, state)}" pathLength="1" data-op="${names[0] || ''}"
    d="M${x1},${y1}${path}" stroke="var(--${tone})" marker-end="url(#head-${tone})"${dashes}/>`;
}
function mark(step, at, y, state, names) {
  const x = xOf(step.site);
  const fault = `<circle cx="${x}" cy="${y}" r="12" fill="none" stroke="var(--wrong)" stroke-width="2"/>`;
  return `<g class="mark${later(at)}${fresh(at, state)}" data-at="${at}" data-op="${names.join(' ')}">${
    shape(step.mark, x, y, `var(--${step.fault ? 'wrong' : step.colour})`)}${step.fault ? fault : ''}</g>`;
}
function firstLine(step, site) {
  const names = step.changed, gone = (name) => site && site.gone[name] ? 'gone' : '';
  const spelled = (name) => `<b class="${colour(name)} ${gone(name)}">${name}</b>`;
  if (names.length > 1) return `<b>batch</b> ${names.map(spelled).join(' ')}`;
  if (names.length === 1) return `${spelled(names[0])} <span class="${gone(names[0])}">${escaped(step.rest)}</span>`;
  if (step.reply.refused) return `<span class="refused">${escaped(step.head)}</span>`;
  return `<b class="${step.colour}">${escaped(step.head)}</b> ${escaped(step.rest)}`;
}
function secondLine(step) {
  if (step.fault) return `<div class="two wrong">${escaped(step.fault)}</div>`;
  if (step.reply.refused)
    return `<div class="two refused">${step.reply.refused}: ${escaped(step.rest.replace(/ \(\d+\)$/, ''))}</div>`;
  if (step.waits?.length) return `<div class="two">waits for ${listed(step.waits)}</div>`;
  const [only, ...others] = accounts(), isOnly = !others.length && step.balances;
  return `<div class="two">${escaped(isOnly ? `${only} ${step.balances}` : step.balances)}</div>`;
}
function label(step, at, y, state, names) {
  const most = step.site < S.world.config.sites ? columnWidth() - 32 : 9999, words = escaped(step.words);
  return `<div class="lab${later(at)}" role="listitem" data-step="${at}" data-op="${names.join(' ')}" title="${words}"
    aria-label="${at + 1}: ${words}" style="left:${xOf(step.site) + 12}px;top:${y - 9}px;max-width:${most}px"><div>${
    firstLine(step, state.sites[step.site])}</div>${secondLine(step)}</div>`;
}
const HEADS = ['red', 'blue', 'token', 'refused', 'again', 'wrong'].map((each) => `<marker id="head-${each}"
  viewBox="0 0 8 8" refX="7" refY="4" markerWidth="6" markerHeight="6" orient="auto"><path d="M0,0L8,4L0,8z"
  fill="var(--${each})"/></marker>`).join('');

/** The arrows and marks in SVG, and the labels over them. */
function steps(place, over, y, state) {
  const svg = [], labels = [], numbered = new Set(), upper = new Set(Object.values(over));
  S.world.steps.forEach((step, at) => {
    const names = about(step);
    if (step.came) svg.push(arrow(step, at, y, state, names));
    if (over[at] < S.current || upper.has(at) && at >= S.current) return;
    svg.push(mark(step, at, y(at), state, names));
    labels.push(label(step, at, y(at), state, names));
    if (!numbered.has(place[at]))
      labels.push(`<span class="number${later(at)}" aria-hidden="true" style="top:${y(at) - 8}px">${at + 1}</span>`);
    numbered.add(place[at]);
  });
  return [svg.join(''), labels.join('')];
}
function notes(y) {
  const shut = S.world.steps.findIndex((step) => !step.taken);
  if (shut >= 0) return `<div class="lab wrong" style="left:${GUTTER + 20}px;top:${y(shut) - ROW + 4}px">what the audit
    can't take</div>`;
  return S.world.steps.length ? '' : `<div class="lab dim nothing" style="left:${GUTTER + 34}px;max-width:${
    columnWidth() * 1.6}px">Nothing has happened yet. Make a deposit at site 0, then bring its message to another
    site.</div>`;
}
export function drawSheet(state) {
  const [place, over] = rows(), count = S.world.steps.length, sheet = $('sheet');
  const y = (at) => TOP + place[at] * ROW;
  const bottom = TOP + (count ? Math.max(...place) + 1 : 0) * ROW + 24;
  const height = Math.max(bottom, sheet.clientHeight - 2);
  const [svg, labels] = steps(place, over, y, state);
  sheet.innerHTML = `<svg width="100%" height="${height}" aria-hidden="true"><defs>${HEADS}</defs>${
    lanes(place, y, height)}<g id="hint"></g>${svg}</svg><div style="height:${height}px"></div>${labels}${notes(y)}`;
  sheet.className = `${S.isLive ? 'new' : ''} ${S.world.messages.length > 30 ? 'dense' : ''}`;
  if (!count) return;
  const at = S.current ? y(S.current - 1) : 0;
  if (at < sheet.scrollTop + 30 || at > sheet.scrollTop + sheet.clientHeight - 60)
    sheet.scrollTop = at - sheet.clientHeight + 70;
}
/** From where a message was sent to the column to which it may come. */
export function drawPointer(chip) {
  const message = S.world.messages[chip.dataset.msg - 1];
  const from = document.querySelector(`.mark[data-at="${message.step}"]`);
  if (!from) return;
  const box = from.getBBox(), x = xOf(Number(chip.dataset.to)), bottom = $('sheet').scrollTop + $('sheet').clientHeight;
  $('hint').innerHTML = `<path d="M${box.x + box.width / 2},${box.y + box.height / 2}L${x},${bottom}" stroke="var(--${
    message.token ? 'token' : colour(message.what)})" stroke-dasharray="5 4" stroke-width="1.6" fill="none"/>`;
}
