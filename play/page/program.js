// The server, and behind it the program: what is asked, one thing after another, and what changes by it.
import {S, applications, changed, fold, forgetMessages} from './state.js';

const GONE = 'The server doesn’t answer. Start it again (make play): the page keeps what was done.';

async function answered(path, options) {
  let answer;
  try {
    answer = await fetch(path, options);
  } catch {
    throw new Error(GONE);
  }
  if (!answer.ok) throw new Error(await answer.text());
  return answer.headers.get('Content-Type').startsWith('application/json') ? answer.json() : answer.text();
}
export const got = (path) => answered(path);
const TEXT = {'Content-Type': 'text/plain'};
export const post = (path, text) => answered(path, {method: 'POST', body: text, headers: TEXT});

export const script = (config = S.config, commands = S.commands) =>
  [JSON.stringify(config), ...commands, ''].join('\n');
export const scriptSoFar = () => script(S.config, S.commands.slice(0, S.current));

let busy = Promise.resolve();
function say(text) {
  S.note = text;
  changed();
}
/** Does this once all that was asked before is done. */
export const queue = (work) => (busy = busy.then(work).catch((why) => say(why.message)));
/** Waits until nothing is under way. */
export async function atRest() {
  for (let was; was !== busy; ) {
    was = busy;
    await was;
  }
}

export const snapshot = () => ({config: S.config, commands: S.commands, current: S.current, text: S.text});
function keep() {
  S.past.push(snapshot());
  S.future = [];
}
/** Gives the program lines, or those that this function finds once all that was asked before is done. */
export const act = (find) => queue(async () => {
  if (S.text !== null) return say('Histories are only drawn here. Undo, or open a script, to go on.');
  const lines = typeof find === 'string' ? [find] : find();
  if (!lines.length) return undefined;
  let commands = [...S.commands.slice(0, S.current), ...lines];
  const world = await post('/world', script(S.config, commands));
  if (world.error) return say(world.words.join('\n'));
  keep();
  if (S.current < S.commands.length) forgetMessages(fold().sent.length);
  Object.assign(S, {world});
  const more = S.isAuto ? applications(world.steps.length) : [];
  if (more.length) Object.assign(S, {world: await post('/world', script(S.config, commands = [...commands, ...more]))});
  Object.assign(S, {commands, current: S.world.steps.length, note: null, next: null, isLive: true});
  changed(true);
  Object.assign(S, {isLive: false});
  return undefined;
});
export async function restore(snap) {
  S.world = await post('/world', snap.text ?? script(snap.config, snap.commands));
  Object.assign(S, {...snap, current: Math.min(snap.current, S.world.steps.length), note: null});
  if (S.site >= S.world.config.sites) S.site = 0;
  changed(true);
}
const go = (from, to) => queue(async () => {
  if (!S[from].length) return;
  S[to].push(snapshot());
  await restore(S[from].pop());
});
export const undo = () => go('past', 'future');
export const redo = () => go('future', 'past');

/** Opens a text, a script or histories, at its start or at its end. */
export const open = (text, isAtEnd) => queue(async () => {
  const world = await post('/world', text);
  if (!world.config || world.error && !world.steps.length) return say(world.words.join('\n'));
  keep();
  const commands = text.split('\n').filter((each) => each.trim()).slice(1, 1 + world.steps.length);
  const words = world.error ? [...world.words, 'Only the lines before it are read.'] : world.histories && world.words;
  Object.assign(S, {world, note: words ? words.join('\n') : null, next: null, config: world.config,
    commands: world.histories ? [] : commands, text: world.histories ? text : null,
    current: isAtEnd ? world.steps.length : 0, aside: new Set(), again: new Map(), site: 0, batch: null, fields: {},
    filter: ''});
  changed(true);
  return undefined;
});
/** Opens a file's text by its name: a migration's is given to the program first. */
export const openFile = (name, text) => name.includes('.migration')
  ? queue(() => post('/migrated', text)).then((histories) => histories && open(histories, true))
  : open(text, name.includes('.histories') || name.includes('journal'));
/** Opens an example by its name. */
export const openExample = (example) => queue(() => got(`/examples/${example.name}`)).then((text) => text &&
  openFile(example.kind === 'Journals of tests' ? 'journal' : example.name, text));

export const travel = (find) => queue(() => {
  S.current = Math.max(0, Math.min(S.world.steps.length, typeof find === 'number' ? find : find()));
  S.note = null;
  changed(true);
});

/* ---- playing by itself */
let timer = null;
export const isPlaying = () => timer !== null;
export function stop() {
  clearInterval(timer);
  timer = null;
  changed();
}
/** Plays on, or stops; anew it plays in any case. */
export function play(isAnew = false) {
  const isOn = isAnew || !isPlaying();
  clearInterval(timer);
  timer = isOn ? setInterval(() => (S.current < S.world.steps.length ? travel(S.current + 1) : stop()), 700) : null;
  changed();
}

/** A site crashes, and is started from its journal: it has to have the balances that it had. */
export const crash = (at) => queue(async () => {
  if (S.text !== null) return say('Histories are only drawn here. Undo, or open a script, to go on.');
  const found = await post(`/crash/${at}`, scriptSoFar()), {sites, sent} = fold();
  const isSame = found.has.every(([account, cents]) => sites[at].has[account] === cents);
  sent.forEach((message, index) => {
    if (S.world.steps[message.step].site === at)
      sites.forEach((site, to) => S.again.set(`${to}:${index + 1}`, site.came[index + 1] || 0));
  });
  if (isSame) S.done.add('crash');
  Object.assign(S, {next: null});
  const mine = sent.filter((message) => S.world.steps[message.step].site === at).map((message) => message.what);
  return say([`Site ${at} was ended, and started from its journal of ${found.entries} entries.`,
    isSame ? 'It has the balances that it had.' : 'ITS BALANCES ARE OTHERS than before.',
    found.sent.length ? `It sends again: ${mine.join(', ')}. They are on the way once more.` : 'It had sent nothing.',
    'Nothing is in the script: no other site can see a crash.', found.cut].filter(Boolean).join('\n'));
});
/** The books are closed, if every site applied every operation. */
export const closeBooks = () => queue(async () => {
  if (S.text !== null) return say('Histories are only drawn here. Undo, or open a script, to go on.');
  const found = await post('/close', scriptSoFar());
  S.done.add(found.fault === 'open' ? 'open' : found.fault || 'closed');
  Object.assign(S, {next: found.fault ? null : found});
  const lacks = (found.lacks || []).map((names, site) => names.length ? `site ${site} lacks ${names.join(', ')}` : '');
  return say([JSON.stringify(found), found.fault === 'open' ? `Not at rest: ${lacks.filter(Boolean).join('; ')}.`
    : found.fault ? 'The books can’t be closed.'
      : 'Closed: the next bank begins with these balances.'].join('\n'));
});
export const openNext = () => S.next && open(script(S.next, []), true);
