// What is done: lines that are written, a plan that is compared and adopted, and what is only tried.
import { beside, button, element, get, made, oneAtATime, placeBeside, post, postAsking, replace, rights, say, secondsOf, table, timeOf, withNumber } from './parts.js';

let day = null, screenNow = null, train = null, plannedOf = null;
const answered = new Map(), held = new Map(), awaited = new Map(), said = new Map();

export function begin(given, screen) {
  day = given;
  screenNow = screen;
  element('tell').addEventListener('submit', tellOfTrain);
  element('ask').addEventListener('submit', event => {
    event.preventDefault();
    askForPlan();
  });
  element('window').addEventListener('submit', tryWindow);
  element('rules').addEventListener('submit', tryRules);
  element('event').addEventListener('change', showEvent);
  element('start').addEventListener('click', () => ofServer('/start', 'The server was started.'));
  element('close').addEventListener('click', () => ofServer('/close', 'The server is told to end.'));
  showRights();
}

export function showRights() {
  element('ask').hidden = !rights.mayTell;
  element('whatif').hidden = !(rights.mayTell && day.program);
  element('tell').hidden = !(rights.mayTell && train);
  if (screenNow()) {
    showTold(screenNow());
    showServer(screenNow());
    showLocks(screenNow());
  }
  plannedOf = null;
  if (screenNow()) showPlan(screenNow());
}

// Does what a button asks for, and says beside it why it is not done.
async function asked(key, does) {
  try {
    return await does();
  } catch (refused) {
    beside(key, `Not taken: ${refused.message}.`);
    say(`Not taken: ${refused.message}.`);
    return null;
  }
}

// Writes lines, and says beside the button what they are answered.
async function write(key, path, words) {
  beside(key, 'Sent.');
  said.delete(key);
  const answer = await asked(key, async () => await postAsking(path, words) || beside(key, 'Not sent.'));
  if (!answer) return null;
  awaited.set(answer.line, key);
  beside(key, `Line ${answer.line} waits for the server.`);
  showAwaited();
  return answer;
}

function showAwaited() {
  for (const { line, words, answer, stands } of screenNow().told) {
    const key = awaited.get(line);
    if (answer && key !== undefined) {
      beside(key, `${words}: ${answer}`);
      said.set(key, line);
      awaited.delete(line);
    }
    // An answer that does not hold any more does not stay beside its button.
    for (const [place, of] of said) {
      if (of !== line || !stands) continue;
      beside(place, `${words}: taken back`);
      said.delete(place);
    }
  }
}

const tell = (key, kind, numbers) => write(key, '/tell', { kind, numbers });
const askForPlan = () => tell('plan', 'solve', [Number(element('nodes').value)]);

// ---- A train

export function trainShown(shown, mayTell) {
  const isSame = train && train.number === shown.number, event = element('event').value;
  train = shown;
  element('tell').hidden = !mayTell;
  element('event').replaceChildren(...train.events.map(([id, at, kind, scheduled, now, , passed, , , , cancelled]) =>
    new Option(`${kind === 'departure' ? 'leaves' : 'reaches'} ${at} ${scheduled}${now === scheduled || cancelled ? '' : `, now ${now}`}`
      + `${passed ? ' (passed)' : cancelled ? ' (cancelled)' : ''}`, id)));
  const ahead = train.events.find(row => !row[6] && !row[10]) || train.events[0];
  element('event').value = isSame && event ? event : ahead[0];
  const leg = element('leg').value;
  element('leg').replaceChildren(...train.legs.map(([id, words, longer]) => new Option(longer ? `${words} (${longer} longer)` : words, id)));
  if (isSame && leg) element('leg').value = leg;
  if (!isSame) showEvent();
  showChoices(mayTell);
}

function showEvent() {
  const event = train.events.find(row => String(row[0]) === element('event').value);
  if (event) element('at').value = timeOf(event[9]);
}

function tellOfTrain(event) {
  event.preventDefault();
  const at = Number(element('event').value), seconds = id => Math.round(Number(element(id).value) * 60);
  const cancel = part => write('tell', '/cancel', { train: train.number, part, event: at });
  const does = {
    whole: () => cancel('whole'), ends: () => cancel('ends'), begins: () => cancel('begins'), again: () => cancel('again'),
    delay: () => tell('tell', 'delay event', [at, seconds('minutes')]), ontime: () => tell('tell', 'delay event', [at, 0]),
    recall: () => tell('tell', 'recall', [at]), slow: () => tell('tell', 'delay activity', [Number(element('leg').value), seconds('longer')]),
    pass: () => {
      const time = secondsOf(element('at').value);
      return time === null ? beside('tell', 'A time is written as 8:05 or 8:05:30.') : tell('tell', 'pass', [at, time]);
    },
  };
  does[event.submitter?.name || 'delay']();
}

function choice(words, number, buttons, classes = '') {
  const row = made('div', '', `choice ${classes}`);
  row.append(withNumber(words, number), ...buttons);
  return row;
}

function keyed(one, key) {
  one.dataset.key = key;
  return one;
}

// The buttons that hold a choice as it is, or let it go.
function holding(key, locked, kind, numbers, lock, words) {
  const [label, does] = locked ? ['Let go', () => tell(key, 'unlock', lock)] : ['Hold', () => write(key, '/hold', { kind, numbers })];
  return keyed(button(label, does, `${label}: ${words}`), `held ${key}`);
}

function showChoices(mayTell) {
  const rows = [];
  const may = (...buttons) => mayTell ? buttons : [];
  const leave = (activity, words) => day.program
    ? [keyed(button('Leave alone', () => leaveAlone(activity, words), `Leave alone in what-if: ${words}`), `leave ${activity}`)] : [];
  if (train.changes.length) rows.push(made('h3', 'Changes'));
  for (const [id, words, kept, over, wait, cancelled, locked] of train.changes) {
    const state = cancelled ? 'cancelled' : over ? (kept ? 'over' : 'over, was dropped') : kept ? (wait ? `kept, waits ${wait}` : 'kept') : 'dropped';
    const key = `change ${id}`, turn = button(kept ? 'Drop' : 'Keep', () => tell(key, kept ? 'drop' : 'keep', [id]), `${kept ? 'Drop' : 'Keep'} the change ${words}`);
    const held = holding(key, locked, kept ? 'keep' : 'drop', [id], [id], words);
    const buttons = over || cancelled ? [] : may(...(locked ? [] : [keyed(turn, key)]), held, ...leave(id, words), placeBeside(key));
    rows.push(choice(`${words}: ${state}${locked ? ', held' : ''}`, key, buttons, cancelled ? 'gone' : ''));
  }
  if (train.pairs.length) rows.push(made('h3', 'Who goes first'));
  for (const [first, other, words, turned, headway, waits, locked] of train.pairs) {
    const pair = [Math.min(first, other), Math.max(first, other)], key = `pair ${pair.join(' ')}`;
    const turn = keyed(button('Turn', () => tell(key, 'first', [other, first]), `Turn: ${turned}`), key);
    const state = `${words}${waits ? `: conflict, the other one waits ${waits}` : ''}${locked ? ', held' : ''}`;
    const held = holding(key, locked, 'first', [first, other], pair, words);
    rows.push(choice(state, `${first} ${other}`, may(...(locked ? [] : [turn]), held, ...leave(headway, words), placeBeside(key))));
  }
  replace(element('choices'), ...rows);
}

// The choices that are held, by whom, and a button that lets each go.
export function showLocks({ locks }) {
  const rows = locks.map(([numbers, words, by]) => {
    const row = made('li'), key = `lock ${numbers.join(' ')}`;
    row.append(withNumber(words, numbers.join(' ')), by ? made('span', ` by ${by} `, 'note') : ' ');
    if (rights.mayTell) row.append(keyed(button('Let go', () => tell(key, 'unlock', numbers), `Let go: ${words}`), key), placeBeside(key));
    return row;
  });
  element('h-locks').textContent = `Held choices (${rows.length})`;
  replace(element('locks').querySelector('ul'), ...(rows.length ? rows : [made('li', 'None.', 'none')]));
}

// ---- Lines that were written here

async function undo(line) {
  const key = `undo ${line}`, answer = await write(key, '/undo', { line });
  if (answer && answer.left.length) say(`Taken back, but not this, which stays as it is: ${answer.left.join('; ')}.`);
  if (answer) beside(key, [`It sets: ${answer.sets.join('; ')}.`, ...(answer.left.length ? [`This stays as it is: ${answer.left.join('; ')}.`] : [])].join(' '));
}

function undoButton({ line, words, sets }) {
  const one = keyed(button('Undo', () => undo(line), `Undo: ${words}`), `undo ${line}`);
  one.title = `It sets: ${sets}`;
  return one;
}

export function showTold(screen) {
  const rows = screen.told.map(told => {
    const { line, numbers, words, raw, answer, good, sets, who, stands } = told, result = made('span', answer || 'waits for the server');
    result.append(...[stands, who && `by ${who}`].filter(Boolean).map(text => made('span', text, 'note line')), placeBeside(`undo ${line}`));
    const cells = [numbers, withNumber(words, raw), result];
    if (rights.mayTell) cells.push(sets && !stands ? undoButton(told) : '');
    return [cells, good === null ? 'waits' : good ? 'good' : 'no'];
  });
  const heads = ['Line', 'Says', 'Answered', ...(rights.mayTell ? [''] : [])];
  const none = day.tells ? 'Nothing was reported here yet.' : 'This desk only shows: it was started without a token.';
  replace(element('told').querySelector('.scroll'), rows.length ? table('', heads, rows) : made('p', none));
  for (const { line, words, answer } of screen.told) {
    if (answered.get(line) === '' && answer) say(`${words}: ${answer}`);
    answered.set(line, answer);
  }
  showAwaited();
}

// ---- Plans

function effectTables(effect, where) {
  const bound = effect.mark === 'optimal' ? `no choices ${where} cost less` : `no choices ${where} cost less than ${effect.bound} (gap ${effect.gap})`;
  const head = made('p', `${effect.mark === 'optimal' ? 'Optimal' : 'Not proved optimal'}: ${effect.cost} instead of ${effect.now}; ${bound}. Changes: ${effect.kept} kept, ${effect.dropped} dropped; `
    + `orders turned: ${effect.turned}; trains at their last stop: ${effect.later} later, ${effect.earlier} earlier.`);
  const choices = effect.choices.map(([kind, words, line, why]) => [[kind, withNumber(words, line), why], '']);
  const trains = effect.trains.map(([, name, at, before, after, moved]) => [[name, at, before, after, moved], '']);
  const more = (all, shown) => all > shown ? ` (the first ${shown} of ${all})` : '';
  const parts = [head];
  if (choices.length) parts.push(inScroll('Choices', table(`Choices${more(effect.count, choices.length)}`, ['What', 'Which', 'Alone, in passenger minutes'], choices)));
  if (trains.length) {
    const heads = ['Train', 'Last stop', 'Late now', 'Then', 'Difference'];
    parts.push(inScroll('Trains', table(`Trains${more(effect.later + effect.earlier, trains.length)}`, heads, trains)));
  }
  if (effect.parts.length) {
    const rows = effect.parts.map(([, names, choices, nodes, bound]) => [[names, choices, nodes, bound].map(String), '']);
    const heads = ['Trains that decide together', 'Choices', 'Nodes', 'Cost at least'];
    parts.push(inScroll('Parts', table(`Parts${more(effect.partCount, rows.length)}`, heads, rows)));
  }
  return parts;
}

function inScroll(label, inner) {
  const one = made('div', '', 'scroll');
  one.tabIndex = 0;
  one.setAttribute('role', 'region');
  one.setAttribute('aria-label', label);
  one.append(inner);
  return one;
}

// What became of a plan that was adopted, whole or as far as it was still free.
function adoption({ adopted, carried, undone, count, entry }) {
  const what = carried === null ? '' : `: what was still free, ${carried} of ${count} choices. Below it stands as it was made, for entry ${entry}`;
  return `Adopted as entry ${adopted}${what}.${undone === null ? '' : ` Taken back by line ${undone}.`}`;
}

const refreshPlan = oneAtATime(async () => {
  const plan = screenNow().plan;
  const found = plan && plan.ready ? await (await get('/plan')).json() : null;
  const effect = found && found.line === plan.line ? found : null;
  const state = made('p', plan.adopted ? adoption(plan) : plan.old
    ? `The plan of entry ${plan.entry} is old: something was entered since. Ask again.` : `Plan of entry ${plan.entry}. Nothing was entered since.`);
  const buttons = [];
  if (rights.mayTell && !plan.adopted) {
    const adopt = keyed(button('Adopt this plan', () => write('plan', '/adopt', { plan: plan.line })), 'adopt');
    adopt.disabled = plan.old;
    const carry = keyed(button('Enter what is still free', () => write('plan', '/carry', { plan: plan.line })), 'carry');
    buttons.push(adopt, ' ', ...(plan.old ? [carry, ' '] : []), keyed(button('Ask again', askForPlan), 'again'));
  }
  replace(element('planned'), state, ...buttons, ...(effect ? effectTables(effect, 'on the whole network') : [made('p', 'What it would change is being worked out.')]));
});

export function showPlan(screen) {
  const is = JSON.stringify([screen.plan, rights.mayTell]);
  if (is === plannedOf) return;
  plannedOf = is;
  if (screen.plan) refreshPlan();
  else replace(element('planned'), made('p', 'No plan was asked for here.'));
}

// ---- The server

async function ofServer(path, words) {
  beside('server', 'Sent.');
  const answer = await asked('server', async () => await postAsking(path, {}) || beside('server', 'Not done.'));
  if (answer) beside('server', words);
}

export function showServer({ runs }) {
  element('server').hidden = !rights.mayTell;
  element('runs').textContent = runs === null ? 'Whether a server runs cannot be known here.' : runs ? 'A server runs.' : 'No server runs.';
  element('close').disabled = runs !== true;
  element('start').disabled = runs !== false;
  element('start').hidden = !day.starts;
}

// ---- What if

function leaveAlone(activity, words) {
  held.set(activity, words);
  showHeld();
}

function showHeld() {
  replace(element('held'), ...[...held].map(([activity, words]) => {
    const row = made('li');
    row.append(withNumber(words, activity), ' ', button('Let go', () => { held.delete(activity); showHeld(); }, `Let go: ${words}`));
    return row;
  }));
}

async function tryWindow(event) {
  event.preventDefault();
  const from = secondsOf(element('begin').value), to = secondsOf(element('end').value);
  if (from === null || to === null) return beside('window', 'A time is written as 8:05.');
  beside('window', '');
  replace(element('windowed'), made('p', 'Planning.'));
  const answer = await asked('window', () => post('/window', { from, to, budget: Number(element('budget').value), held: [...held.keys()] }));
  replace(element('windowed'), ...(answer ? effectTables(await answer.json(), 'in this window') : []));
}

async function tryRules(event) {
  event.preventDefault();
  replace(element('ruled'), made('p', 'Comparing.'));
  const answer = await asked('rules', () => post('/rules', {}));
  if (!answer) return replace(element('ruled'));
  const drawn = new DOMParser().parseFromString(await answer.text(), 'image/svg+xml').documentElement;
  replace(element('ruled'), document.importNode(drawn, true));
}
