// The tabs at the right: the puzzles, the lines of the script, and what marks and keys mean.
import {$, escaped, shape, sorted} from './basics.js';
import {S} from './state.js';
import {drawPuzzles} from './puzzles.js';
import {VERBS, isRequest} from './form.js';

const requests = VERBS.filter(([verb]) => isRequest(verb));
const KEYS = [['0 … 9', 'choose a site'],
  [requests.map(([, key]) => key).join(' '), requests.map(([verb]) => verb).join(', ')],
  ['p b o s', 'pass the token; balance, as of, statement'], ['m', 'begin a batch, or leave it'],
  ['Enter', 'do what the form says'], ['n', 'the next message comes to the chosen site'],
  ['y', 'apply what is ready there'],
  ['u U', 'undo, redo'], ['← → Home End', 'go through time'], ['space', 'play'], ['a', 'histories and their audit'],
  ['x', 'the chosen site crashes, and starts again'], ['k', 'close the books'],
  ['Tab', 'to each message and held operation; Enter delivers or applies it, Delete puts it aside'],
  ['Esc', 'out of a field; close']];

function config() {
  const {accounts} = S.world.config;
  return sorted(accounts.length <= 20 ? S.world.config
    : {...S.world.config, accounts: [...accounts.slice(0, 3), `and ${accounts.length - 3} more`]});
}
function lines() {
  const of = (step, at) => {
    const asked = S.text === null ? {...step.event, site: step.site} : {site: step.site, ...step.event};
    const isHere = at === S.current - 1;
    return `<button class="cmd${isHere ? ' at' : ''}${at >= S.current ? ' later' : ''}" data-go="${at + 1}"${
      isHere ? ' aria-current="step"' : ''}><i>${at + 1}</i><span>${escaped(sorted(asked))}<br><span class="${
      step.reply.refused ? 'refused' : 'dim'}">${escaped(sorted(step.reply))}</span></span></button>`;
  };
  return `<div class="cmd"><i></i><span>${escaped(config())}</span></div>${S.world.steps.map(of).join('')}`;
}
function marks() {
  const row = (mark, text, tone = 'blue') => `<tr><td><svg width="20" height="20" aria-hidden="true">${
    shape(mark, 10, 10, `var(--${tone})`)}</svg></td><td>${text}</td></tr>`;
  const spelled = (names) => names.split(' ').map((key) => `<kbd>${key}</kbd>`).join(' ');
  const keys = KEYS.map(([names, what]) => `<tr><td>${spelled(names)}</td><td>${what}</td></tr>`).join('');
  return `<table>${row('●', 'made here, for a customer of this site')}${row('○', 'came from another site, and is held')}
    ${row('◉', 'a held operation is applied')}${row('✕', 'refused, with the reason and its number', 'refused')}
    ${row('◆', 'the token is passed or taken; the yellow band is where it is', 'token')}
    ${row('·', 'a question', 'asked')}</table>
    <p><b class="blue">Blue</b> operations commute with all others: any site makes them at any time.
    <b class="red">Red</b> ones are in one order, which the token keeps: only the site that has it makes them.
    <span class="gone">Struck out</span> is what the site knows to be cancelled.</p>
    <p>Point at an operation, or touch it: what its home had applied before it stays lit. Click on a step to go back to
    it; what is done there begins anew, and undo brings back what was.</p><table>${keys}</table>`;
}
export function drawPane() {
  document.querySelectorAll('#tabs nav button').forEach((tab) => {
    tab.classList.toggle('on', tab.dataset.tab === S.tab);
    tab.setAttribute('aria-selected', String(tab.dataset.tab === S.tab));
  });
  $('pane').innerHTML = {puzzles: drawPuzzles, lines, marks}[S.tab]();
  $('pane').querySelector('.at, .end')?.scrollIntoView({block: 'nearest'});
}
