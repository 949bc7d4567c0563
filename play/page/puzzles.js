// The puzzles of puzzles.json: what is asked, which of it is done, and a run that shows the end.
import {$, sorted} from './basics.js';
import {S, fold} from './state.js';
import {act, closeBooks, crash, open, play, queue, script} from './program.js';
import {forge, hideHistories, judge, openHistories} from './histories.js';

const happened = (test) => S.world.steps.slice(0, S.current).some(test);
const countOfMade = () => S.world.messages.filter((message) => !message.token && message.step < S.current).length;
function areInOtherOrders() {
  const lists = fold().sites.map((site) => site.list);
  const common = (one, two) => one.filter((name) => two.includes(name)).join();
  return lists.some((one) => lists.some((two) => common(one, two) !== common(two, one)));
}
/** Whether a goal of this kind is reached. */
const GOALS = {
  refused: (n) => happened((step) => step.reply.refused === n),
  declined: () => happened((step) => step.reply.kind === 'declined'),
  differ: () => happened((step) => step.differs),
  waits: () => happened((step) => step.reply.held && step.waits.length),
  full: () => happened((step) => step.reply.held && step.full && !step.waits.length),
  came: () => happened((step) => step.reply.held || step.reply.taken),
  already: () => happened((step) => step.reply.already),
  orders: areInOtherOrders,
  settled: () => countOfMade() > 1 && fold().sites.every((site) => site.list.length === countOfMade()),
  done: (what) => S.done.has(what), // beside the script: an audit's answer, crash, open, closed
};
/** What a run does beside its commands: each is done after all that was asked before. */
const DOES = {
  crash: ({site}) => crash(site),
  close: () => closeBooks(),
  audit: () => {
    openHistories();
    judge();
  },
  forge: ({kind}) => {
    openHistories();
    forge(kind);
  },
};

function goals(puzzle, isHere) {
  return puzzle.goals.map(([text, kind, value]) => ({text, isDone: isHere && GOALS[kind](value)}));
}
function one(puzzle, at) {
  const title = `<h3 data-puzzle="${at}" tabindex="0" role="button" aria-expanded="${at === S.puzzle}">${
    puzzle.title}</h3>`;
  if (at !== S.puzzle) return `<div class="puzzle">${title}</div>`;
  const isHere = S.text === null && sorted(S.config) === sorted(puzzle.bank), found = goals(puzzle, isHere);
  const list = found.map(({text, isDone}) => `<li class="${isDone ? '' : 'dim'}">${isDone ? '☑' : '☐'} ${text}</li>`);
  const end = found.every(({isDone}) => isDone) ? `<p class="end">${puzzle.end}</p>` : '';
  return `<div class="puzzle">${title}<p>${puzzle.text}</p><ul>${list.join('')}</ul>${end}<div class="bar"><button
    data-do="begin"${isHere && !S.commands.length ? ' disabled' : ''}>${isHere ? 'From the start' : 'Begin'}</button>
    <button data-do="show">Show me</button></div></div>`;
}
export const drawPuzzles = () => S.puzzles.map(one).join('');

/** Begins the chosen puzzle, or shows its run: played, if it is commands alone. */
export function begin(isShown) {
  const puzzle = S.puzzles[S.puzzle], isPlayed = !puzzle.show.some((each) => each.do);
  S.done = new Set();
  hideHistories();
  if (!isShown || isPlayed) {
    open(script(puzzle.bank, isShown ? puzzle.show.map(sorted) : []), false);
    if (isShown) queue(() => play(true));
    return;
  }
  open(script(puzzle.bank, []), true);
  for (const each of puzzle.show) {
    if (each.do) DOES[each.do](each);
    else act(sorted(each));
  }
}
export function choosePuzzle(at, drawPane) {
  S.puzzle = at;
  drawPane();
  $('pane').children[at].scrollIntoView({block: 'nearest'});
}
