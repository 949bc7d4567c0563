// The page: draws all of it, and does what is clicked and chosen.
import {$, applyLine, deliverLine} from './basics.js';
import {S, accounts, appliedAt, applications, changed, deliveries, fold, watch} from './state.js';
import {act, closeBooks, crash, got, isPlaying, open, openExample, openFile, openNext, play, queue, redo, restore,
  script, snapshot, travel, undo} from './program.js';
import {drawCards, drawSheet} from './diagram.js';
import {drawDocks, putAside} from './docks.js';
import {drawForm, makeBatch, setVerb, spell, submit} from './form.js';
import {drawHistories, forge, hideHistories, judge, migrate, openHistories, save} from './histories.js';
import {drawPane} from './panes.js';
import {drawSaid} from './said.js';
import {begin, choosePuzzle} from './puzzles.js';
import * as keys from './keys.js';
import * as pointer from './pointer.js';

/* ---- everything at once */
function stateLine(state) {
  if (S.world.verdict) return S.world.words[0];
  if (S.current < S.world.steps.length) return 'What is done here begins anew; undo brings this back.';
  const apart = accounts().filter((name) => state.apart.has(name));
  const held = state.sites.reduce((sum, site) => sum + site.held.size, 0);
  return `${apart.length ? `The sites differ: ${apart.slice(0, 3).join(', ')}${apart.length > 3 ? ' and more' : ''}.`
    : 'All sites have the same balances.'}${held ? ` ${held} held.` : ''}`;
}
function drawFoot(state) {
  $('when').max = S.world.steps.length;
  $('when').value = S.current;
  $('when').setAttribute('aria-valuetext', `${S.current} of ${S.world.steps.length} steps`);
  $('count').textContent = `${S.current} of ${S.world.steps.length}`;
  $('state').textContent = stateLine(state);
  $('undo').disabled = !S.past.length;
  $('redo').disabled = !S.future.length;
  $('play').textContent = isPlaying() ? 'pause' : 'play';
}
/** The focus goes to what is in the place of the button that had it. */
function refocus(key) {
  const dock = key.split(':')[0];
  const next = document.querySelector(`[data-key="${key}"]:not(.came)`)
    || document.querySelector(`[data-dock="${dock}"] .chip.way, [data-dock="${dock}"] .held`)
    || document.querySelector(`[data-key="${key}"]`);
  next?.focus();
}
function drawColumns(state) {
  drawCards(state);
  drawSheet(state);
  drawDocks(state);
  const bar = $('sheet').offsetWidth - $('sheet').clientWidth;
  for (const each of ['cards', 'docks']) {
    $(each).style.gridTemplateColumns = `repeat(${S.world.config.sites},minmax(0,1fr))`;
    $(each).style.paddingRight = `${bar}px`;
  }
}
function remember() {
  try {
    sessionStorage.setItem('play', JSON.stringify({snap: snapshot(), hash: location.hash}));
  } catch {
    // nothing is kept, then
  }
}
watch((isMoved) => {
  if (!S.world) {
    $('said').textContent = S.note || '';
    return;
  }
  const state = fold(), key = document.activeElement?.dataset?.key;
  S.isDrawing = true;
  pointer.forget();
  state.before = S.past.length ? S.past.at(-1).current : 0;
  fold(S.world.steps.length); // each step learns what its drawing shows
  drawColumns(state);
  if (isMoved) drawForm();
  drawSaid();
  drawPane();
  drawFoot(state);
  if (key) refocus(key);
  S.isDrawing = false;
  remember();
});

/* ---- what is clicked */
const DOES = {begin: () => begin(false), show: () => begin(true), edit: () => openHistories(), next: openNext};
const BY_DATA = {
  site: (of) => {
    S.site = Number(of.dataset.site);
    changed(true);
  },
  verb: (of) => setVerb(of.dataset.verb),
  msg: (of) => act(deliverLine(Number(of.dataset.msg), Number(of.dataset.to))),
  apply: (of) => act(applyLine(of.dataset.apply, Number(of.dataset.at))),
  all: (of) => act(() => deliveries(Number(of.dataset.all))),
  ready: (of) => act(() => appliedAt(Number(of.dataset.ready))),
  go: (of) => travel(Number(of.dataset.go)),
  step: (of) => travel(Number(of.dataset.step) + 1),
  tab: (of) => {
    S.tab = of.dataset.tab;
    drawPane();
  },
  puzzle: (of) => choosePuzzle(Number(of.dataset.puzzle), drawPane),
  save: (of) => save(of.dataset.save),
  forge: (of) => forge(of.dataset.forge),
  do: (of) => DOES[of.dataset.do](),
};
const BY_ID = {
  undo, redo, play: () => play(), first: () => travel(0), back: () => travel(() => S.current - 1),
  next: () => travel(() => S.current + 1), last: () => travel(() => S.world.steps.length),
  audit: () => openHistories(), judge, again: () => openHistories(true), migrate, close: hideHistories,
  draw: drawHistories,
  books: () => closeBooks(), crash: () => crash(S.site), everything: () => act(() => deliveries()),
  fresh: () => $('bank').showModal(), make: makeBatch,
  keys: () => {
    S.tab = 'marks';
    drawPane();
  },
  theme: () => {
    const {dataset} = document.documentElement;
    dataset.theme = dataset.theme === 'dark' ? 'light' : 'dark';
  },
};
function click(event) {
  if (pointer.wasDropped()) return;
  const button = event.target.closest('button');
  if (button && button.id in BY_ID) {
    BY_ID[button.id]();
    return;
  }
  for (let of = event.target; of && of !== document; of = of.parentNode) {
    const kind = Object.keys(BY_DATA).find((each) => of.dataset && each in of.dataset);
    if (kind && !of.matches('#sheet .mark')) {
      BY_DATA[kind](of);
      return;
    }
  }
}

/* ---- what is chosen */
/** The configuration that the dialog says. */
function newBank() {
  const text = $('names').value.split(',').map((each) => each.trim().split(/\s+/));
  const sites = Number($('k').value), version = sites > 8 ? 2 : Number($('version').value);
  const config = {accounts: text.map(([name, cents]) => [name, Number(cents) || 0]), sites, version};
  for (const key of ['blue', 'epoch', 'history', 'inbox', 'red'])
    if ($(key).value.trim()) config[key] = Number($(key).value);
  return config;
}
/** Files that are chosen together are the journals of sites: all but the first lose their first line. */
async function openFiles(files) {
  const texts = await Promise.all(files.map((file) => file.text()));
  const isMany = texts.length > 1;
  const rest = texts.slice(1).map((text) => text.trim().split('\n').slice(1).join('\n'));
  openFile(isMany ? 'journal' : files[0].name, isMany ? [texts[0].trim(), ...rest, ''].join('\n') : texts[0]);
}
function listenToForms() {
  $('act').addEventListener('submit', (event) => {
    event.preventDefault();
    submit();
  });
  for (const change of ['input', 'change']) $('act').addEventListener(change, ({target}) => {
    if (!target.dataset.field) return;
    S.fields[target.dataset.field] = target.value;
    spell();
  });
  $('auto').addEventListener('change', (event) => {
    S.isAuto = event.target.checked;
    changed();
    if (S.isAuto && S.text === null) act(() => applications());
  });
  $('filter').addEventListener('input', (event) => {
    S.filter = event.target.value;
    drawCards(fold());
  });
  $('when').addEventListener('input', (event) => travel(Number(event.target.value)));
  $('bank').addEventListener('close', () => {
    if ($('bank').returnValue === 'yes') open(script(newBank(), []), true);
  });
}
function listenToFiles(examples) {
  $('pick').addEventListener('change', (event) => {
    const name = event.target.value;
    event.target.value = '';
    event.target.blur();
    if (name === 'file') $('file').click();
    else openExample(examples.find((each) => each.name === name));
  });
  $('file').addEventListener('change', (event) => {
    openFiles([...event.target.files]);
    event.target.value = ''; // else the same file, mended, is no change
  });
}
function listExamples(examples) {
  for (const kind of new Set(examples.map((each) => each.kind))) {
    const group = document.createElement('optgroup');
    group.label = kind;
    for (const each of examples.filter((one) => one.kind === kind)) {
      const option = new Option(each.name.split('.')[0].replaceAll('_', ' '), each.name);
      option.title = each.about;
      group.append(option);
    }
    $('pick').append(group);
  }
}

/* ---- the beginning */
async function start() {
  let kept = null;
  try {
    kept = JSON.parse(sessionStorage.getItem('play'));
  } catch {
    // nothing was kept
  }
  S.puzzles = await got('/puzzles.json');
  const {examples, program} = await got('/examples');
  await restore(kept?.snap || snapshot()).catch(() => restore(snapshot()));
  $('who').textContent = `answered by ${program.replace(/ \/.*/, '')}`;
  listExamples(examples);
  listenToFiles(examples);
  const openNamed = () => {
    const example = examples.find((each) => each.name === decodeURIComponent(location.hash.slice(1)));
    if (example) openExample(example);
  };
  window.addEventListener('hashchange', openNamed);
  if (kept?.hash !== location.hash) openNamed();
}
document.documentElement.dataset.theme = matchMedia('(prefers-color-scheme:dark)').matches ? 'dark' : 'light';
document.documentElement.classList.add('started');
document.addEventListener('click', click);
const setAside = (of) => {
  putAside(of);
  changed();
};
document.addEventListener('contextmenu', (event) => {
  const of = event.target.closest('.chip.way, .chip.aside');
  if (!of) return;
  event.preventDefault();
  setAside(of);
});
pointer.listen((message, site) => act(deliverLine(message, site)));
keys.listen(setAside);
listenToForms();
queue(start).then(() => new ResizeObserver(() => S.world && changed()).observe($('sheet')));
