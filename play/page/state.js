// What the page knows: the script, the moment that is shown, and what each site has at it. Replies, balances and clocks
// are the program's. What a site holds is in its replies; what that waits for is in the clock of the operation.
import {applyLine, colour, deliverLine, maker, nameOf, number} from './basics.js';

const MOST_HELD = 4096; // if the configuration has no limit

export const S = {
  config: {accounts: [['ann', 500], ['bob', 0]], sites: 2, version: 1},
  commands: [], // lines
  current: 0, // the steps that have happened
  text: null, // of histories that are shown in place of a script
  world: null, // what happened: the answer to POST /world
  isLive: false, // the last change is drawn as it happens
  isDrawing: false,
  note: null, // what is said in place of the step
  site: 0, verb: 'deposit', batch: null, fields: {}, // the form
  isAuto: false, filter: '', tab: 'puzzles', puzzle: 0, puzzles: [],
  aside: new Set(), // messages that are put aside, as SITE:MESSAGE
  again: new Map(), // messages that a site sent again after a crash, with how often they had come
  done: new Set(), // what was done beside the script: audits, crashes, closings
  next: null, // the configuration that closing the books gave
  past: [], future: [],
};

/* ---- what redraws the page */
const watchers = [];
export const watch = (draw) => watchers.push(draw);
/** Draws the page anew: all of it, or but for the form. */
export const changed = (isMoved = false) => watchers.forEach((draw) => draw(isMoved));

/* ---- operations */
export const accounts = () => S.world.config.accounts.map(([name]) => name);
/** By site, and R for red ones, how many operations the home had applied before it made this one. */
export function past(name) {
  const known = S.world.operations[name];
  if (!known) return {};
  const [blue, red] = known.deps;
  const pairs = S.world.config.version === 1 ? blue.map((n, site) => [site, n]) : blue;
  return Object.fromEntries([...pairs, ['R', red]].filter(([, n]) => n));
}
export const isBefore = (one, name) => number(one) <= (past(name)[maker(one)] || 0);
export function described(name) {
  const {kind, account, to, target, amount} = S.world.operations[name] ?? {};
  if (target) return `${kind} of ${target}`;
  return kind ? `${kind} ${account} ${to ? `→ ${to} ` : ''}${amount ?? ''}` : '';
}
/** The operations that a site has to apply before this one, the first 20 of each maker. */
export const waits = (site, name) => Object.entries(past(name)).flatMap(([who, n]) => {
  const has = site.counts[who] || 0;
  return Array.from({length: Math.min(20, Math.max(0, n - has))}, (_, k) => nameOf(who, has + k + 1));
});

/* ---- what each site has after some steps */
function newSites() {
  const has = Object.fromEntries(S.world.config.accounts);
  return Array.from({length: S.world.config.sites}, (_, at) => ({
    list: [], counts: {}, held: new Set(), came: {}, has: {...has}, token: at === 0, needed: 0, gone: {}}));
}
function noteApplied(site, name) {
  site.list.push(name);
  site.counts[maker(name)] = (site.counts[maker(name)] || 0) + 1;
  site.held.delete(name);
  const target = S.world.operations[name]?.target;
  if (target) site.gone[target] = (site.gone[target] || 0) + 1;
}
/** What a refusal lacks. */
function noteRefusal(sites, site, step) {
  const {reply, event} = step;
  if (event.apply && [10, 17, 18].includes(reply.refused)) site.held.delete(event.apply);
  if (reply.refused === 15) step.waits = waits(site, event.apply);
  const {needed, seen} = reply;
  if (reply.refused === 9) step.waits = Array.from({length: Math.min(20, needed - seen)}, (_, k) => `R${seen + k + 1}`);
  if (reply.refused === 8 || reply.cause === 8) {
    const holder = sites.findIndex((each) => each.token);
    step.hint = holder < 0 ? 'It is on its way.' : `Site ${holder} has it.`;
  }
}
function noteBalances(sites, site, step, apart) {
  for (const [account, balance] of step.has) site.has[account] = balance;
  for (const [account] of step.has) {
    const isApart = sites.some((each) => each.has[account] !== sites[0].has[account]);
    if (isApart) apart.add(account);
    else apart.delete(account);
  }
}
function advance(sites, step, apart) {
  const site = sites[step.site], {reply} = step;
  if (!site || !step.taken) return;
  // what was refused may come again
  if (step.came && !reply.refused) site.came[step.came] = (site.came[step.came] || 0) + 1;
  step.changed.forEach((name) => noteApplied(site, name));
  noteBalances(sites, site, step, apart);
  if (reply.held) {
    step.full = site.held.size;
    site.held.add(reply.held);
    step.waits = waits(site, reply.held);
  }
  noteRefusal(sites, site, step);
  if (reply.passed) site.token = false;
  if (reply.taken) {
    site.token = true;
    site.needed = S.world.messages[step.came - 1]?.token[2] || 0;
  }
}
/** What each site has after the first steps; on the way each step learns what its drawing shows. */
export function fold(count = S.current) {
  const sites = newSites(), apart = new Set();
  for (const step of S.world.steps.slice(0, count)) {
    advance(sites, step, apart);
    step.differs = apart.size > 0;
  }
  const sent = S.world.messages.filter((message) => message.step < count && S.world.steps[message.step].taken);
  const ready = sites.map((site) => [...site.held].filter((name) => !waits(site, name).length));
  return {sites, sent, ready, apart};
}

/* ---- what is shown of many accounts */
export const FEW = 12, MOST_SHOWN = 40;
export const matching = (names) => names.filter((name) => name.includes(S.filter.trim().toLowerCase()));
/** The accounts that the columns' heads show; if there are many, those first that something happened to. */
export function shownAccounts() {
  const names = accounts();
  if (names.length <= FEW) return names;
  const touched = new Set(S.world.steps.slice(0, S.current).flatMap((step) => step.has.map(([account]) => account)));
  const found = matching(names), others = found.filter((name) => !touched.has(name));
  return [...found.filter((name) => touched.has(name)), ...others].slice(0, MOST_SHOWN);
}

/* ---- commands that bring messages, and apply what is ready */
const weave = (lists) => Array.from({length: Math.max(...lists.map((list) => list.length))}, (_, k) =>
  lists.flatMap((list) => list.slice(k, k + 1))).flat();
/** The commands that apply at a site whatever is ready, one after another, until nothing is. */
function settled(site, at) {
  const found = [];
  for (let name; (name = [...site.held].find((each) => !waits(site, each).length)); noteApplied(site, name))
    found.push(applyLine(name, at));
  return found;
}
/** The same at all sites, in turns. */
export const applications = (count = S.current) => weave(fold(count).sites.map(settled));
export const appliedAt = (site) => applications().filter((each) => JSON.parse(each).site === site);
/** Whether a message may come to a site: it wasn't there yet, or its sender crashed and sent it again. */
export function isOnTheWay(site, at, message, n) {
  if (S.world.steps[message.step].site === at || S.aside.has(`${at}:${n}`)) return false;
  const isFor = !message.token || message.token[1] === at;
  return isFor && (!site.came[n] || site.came[n] <= (S.again.get(`${at}:${n}`) || 0));
}
/** Forgets what was noted of messages beyond the first: others will have their numbers. */
export function forgetMessages(count) {
  for (const noted of [S.aside, S.again])
    for (const key of [...noted.keys()].filter((each) => Number(each.split(':')[1]) > count)) noted.delete(key);
}
/** The commands that bring everything to a site, or to all, in the order of sending. With the switch on each is applied
 * as soon as it is ready, so what an inbox takes is followed here. */
export function deliveries(to) {
  const {sites, sent} = fold();
  return sent.flatMap((message, index) => {
    const isReceiver = (site, at) => (to ?? at) === at && isOnTheWay(site, at, message, index + 1);
    const receivers = sites.filter(isReceiver);
    const most = S.world.config.inbox ?? MOST_HELD;
    for (const site of message.token ? [] : receivers) {
      const isNew = !site.came[index + 1];
      if (isNew && (site.held.size < most || !waits(site, message.what).length)) site.held.add(message.what);
    }
    const lines = receivers.map((site) => deliverLine(index + 1, sites.indexOf(site)));
    return [...lines, ...S.isAuto ? weave(sites.map(settled)) : []];
  });
}
export const tone = (message) => message.token ? 'token' : colour(message.what);
