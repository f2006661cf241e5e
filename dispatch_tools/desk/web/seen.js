// What is seen: late trains, alerts, the diagram of a line, a train, a board, the last entries.
import { beside, button, element, get, made, oneAtATime, placeBeside, post, replace, rights, say, secondsOf, table, timeOf, withNumber } from './parts.js';
import { trainShown } from './done.js';

let day = null, clock = 0, lastEntries = 0, wide = 1, shown = null, only = null;

// So many hits are listed, and a drawing is at least so large beside its own size.
const HITS = 12, LEGIBLE = 0.7;
const SEVERITIES = ['urgent', 'warning', 'notice'];
const body = id => element(id).querySelector('.scroll');
const option = (text, value) => new Option(text, value);

export function begin(given) {
  day = given;
  element('lines').append(...day.lines.map(option));
  element('trains').append(...day.trains.map(([name], number) => option(name, number)));
  for (const id of ['stops', 'only-stop']) element(id).append(...day.stops.map(([stop, name]) => option(name, stop)));
  element('only-line').append(...day.lines.map(option));
  element('only-line').addEventListener('change', chooseOnly);
  element('only-stop').addEventListener('change', chooseOnly);
  for (const [id, does] of [['lines', refreshLine], ['trains', () => chooseTrain(Number(element('trains').value))], ['stops', refreshBoard]]) element(id).addEventListener('change', does);
  for (const id of ['from', 'to', 'follows', 'preview']) element(id).addEventListener('change', refreshLine);
  element('from').addEventListener('input', () => { element('follows').checked = false; });
  element('to').addEventListener('input', () => { element('follows').checked = false; });
  element('wider').addEventListener('click', () => widen(1.4));
  element('narrower').addEventListener('click', () => widen(1 / 1.4));
  element('find').addEventListener('submit', find);
  element('wanted').addEventListener('input', showHits);
  element('order').addEventListener('change', () => shown && showAlerts(only || shown));
  element('wall').textContent = timeOf(wallClock(), true);
  setInterval(() => { element('wall').textContent = timeOf(wallClock(), true); }, 1000);
  element('view').addEventListener('click', event => {
    const train = event.target.closest('.train');
    if (train) showTrain(Number(train.dataset.t));
  });
}

// The trains and stops of which a name has what is wanted, those that are called so first, each as its words and what shows it.
function hits() {
  const wanted = element('wanted').value.trim().toLowerCase();
  if (!wanted) return [];
  const rank = names => names.some(name => name.toLowerCase() === wanted) ? 0 : names.some(name => name.toLowerCase().includes(wanted)) ? 1 : 2;
  const all = [
    ...day.trains.map(([name, trip, from, to, at], number) => [rank([name, trip]), `${name}, ${from} – ${to}, ${at}`, () => showTrain(number)]),
    ...day.stops.map(([stop, name]) => [rank([name]), name, () => showStop(stop)]),
  ];
  return [0, 1].flatMap(level => all.filter(([is]) => is === level));
}

function showHits() {
  const found = hits();
  beside('find', element('wanted').value.trim() && !found.length ? 'No train and no stop is called so.' : '');
  element('hits').replaceChildren(...found.slice(0, HITS).map(([, words, does]) => {
    const row = made('li');
    row.append(button(words, () => { hideHits(); does(); }, '', 'link'));
    return row;
  }), ...(found.length > HITS ? [made('li', `and ${found.length - HITS} more`)] : []));
}

function hideHits() {
  element('hits').replaceChildren();
}

function find(event) {
  event.preventDefault();
  const [first] = hits();
  if (!first) return showHits();
  hideHits();
  first[2]();
}

// Chooses a train, and shows its line in the diagram.
function chooseTrain(number) {
  const line = day.trains[number]?.[5] ?? -1;
  if (line >= 0 && Number(element('lines').value) !== line) {
    element('lines').value = line;
    refreshLine();
  }
  refreshTrain();
}

export function showTrain(number) {
  element('trains').value = number;
  chooseTrain(number);
  element('train').scrollIntoView({ block: 'nearest' });
  say(`Train: ${day.trains[number][0]}`);
}

function showStop(stop) {
  element('stops').value = stop;
  refreshBoard();
  element('board').scrollIntoView({ block: 'nearest' });
  say(`Board: ${day.stops.find(([id]) => id === stop)[1]}`);
}

// ---- The screen

export function showScreen(screen) {
  clock = screen.seconds;
  element('clock').textContent = screen.clock || 'not reported';
  element('entries').textContent = screen.began ? screen.entries : 'no server yet';
  element('confirmed').textContent = confirmed(screen);
  element('cost').textContent = screen.cost || '–';
  element('cost-at').textContent = screen.cost ? `Cost at entry ${screen.confirmed}` : 'Cost';
  element('who').textContent = screen.who;
  shown = screen;
  if (wanted()) refreshOnly();
  else showLists();
}

// What is shown alone: the fields of an address, or nothing.
function wanted() {
  const words = new URLSearchParams();
  for (const name of ['line', 'stop']) if (element(`only-${name}`).value) words.set(name, element(`only-${name}`).value);
  return String(words);
}

const refreshOnly = oneAtATime(async () => {
  const words = wanted(), found = words ? await (await get(`/only?${words}`)).json() : null;
  if (words !== wanted()) return;
  only = found;
  showLists();
});

// Shows a line and a stop alone, and turns the diagram and the board to them.
function chooseOnly() {
  for (const [from, to, refresh] of [['only-line', 'lines', refreshLine], ['only-stop', 'stops', refreshBoard]]) {
    if (!element(from).value || element(from).value === element(to).value) continue;
    element(to).value = element(from).value;
    refresh();
  }
  refreshOnly();
}

function showLists() {
  const lists = only || shown;
  if (!lists) return;
  showAlerts(lists);
  showLate(lists);
  showJournal(lists);
}

function confirmed(screen) {
  if (screen.second) return 'of the second reading alone';
  if (screen.confirmed === null) return 'not yet confirmed';
  return screen.confirmed === screen.entries ? 'confirmed by the program' : `confirmed up to entry ${screen.confirmed}`;
}

function alertRow({ severity, clock, kind, key, words, who, at }) {
  const row = made('li', '', severity);
  row.append(made('b', severity), made('span', clock, 'time'), made('span', who ? `${words} Seen by ${who} at ${at}.` : words, 'words'));
  if (who || !rights.mayTell || key === 'more') return row;
  const place = `see ${kind} ${key}`, does = button('Seen', () => post('/see', { kind, key }).catch(refused => beside(place, refused.message)), `Seen: ${words}`);
  does.dataset.key = place;
  row.append(does, placeBeside(place));
  return row;
}

function showAlerts({ alerts, seen }) {
  const rank = ({ severity }) => SEVERITIES.indexOf(severity);
  const byTime = element('order').value === 'time';
  const rows = [...alerts].sort((one, other) => byTime ? other.entry - one.entry || rank(one) - rank(other) : rank(one) - rank(other)).map(alertRow);
  element('h-alerts').textContent = `Alerts (${rows.length})`;
  replace(element('alerts').querySelector('ul'), ...(rows.length ? rows : [made('li', 'None.', 'none')]));
  element('seen').querySelector('summary').textContent = `Seen (${seen.length})`;
  element('seen').querySelector('ul').replaceChildren(...seen.map(alertRow));
}

function trainButton(number, name) {
  const one = button(name, () => showTrain(number), '', 'link');
  one.dataset.key = `train ${number}`;
  return one;
}

function showLate(screen) {
  const rows = screen.late.map(([number, name, next, scheduled, now, late, worst, later]) => [
    [trainButton(number, name), next, withBold(now === scheduled ? '' : `${scheduled} `, now, '', 'time'), lateWords(late, later)],
    worst >= day.late ? 'bad' : '']);
  const gone = screen.cancelled.map(([number, name, part, whom, by]) =>
    [[trainButton(number, name), `cancelled ${part}`, '', by ? `${whom}. By ${by}` : whom], 'gone']);
  element('h-late').textContent = `Late trains (${screen.lateCount} of ${screen.trains}${gone.length ? `; ${gone.length} cancelled` : ''})`;
  const heads = ['Train', 'Next', 'Scheduled, now', 'Late there; at the worst'];
  replace(body('late'), rows.length || gone.length ? table('', heads, [...gone, ...rows]) : made('p', 'No train is a minute late.'));
}

// How late a train is at its next event, and where it will be latest.
function lateWords(late, worst) {
  const whole = withBold('', late, '');
  if (worst) whole.append(made('span', worst, 'note line'));
  return whole;
}

function withBold(before, bold, behind, classes = '') {
  const whole = made('span', before, classes);
  whole.append(made('b', bold), behind);
  return whole;
}

function showJournal(screen) {
  const rows = screen.journal.map(([number, feed, words, line]) =>
    [[String(number), withNumber(words, line), feed], number > lastEntries && lastEntries ? 'new' : '']);
  replace(body('journal'), table('', ['Entry', 'Says', 'Reported by'], rows));
  lastEntries = shown.entries;
}

// ---- The diagram

function spanOfLine() {
  const [first, last] = day.span;
  if (element('follows').checked) {
    const about = clock || Math.min(Math.max(wallClock(), first), last);
    const begin = Math.floor((about - 2700) / 600) * 600;
    return last - first <= 7200 ? [null, null] : (from => [from, from + 9000])(Math.max(0, begin, Math.floor((first - 300) / 600) * 600));
  }
  const span = [secondsOf(element('from').value), secondsOf(element('to').value)];
  return span.includes(null) || span[0] >= span[1] ? [null, null] : span;
}

function wallClock() {
  const now = new Date();
  return now.getHours() * 3600 + now.getMinutes() * 60 + now.getSeconds();
}

export const refreshLine = oneAtATime(async () => {
  if (!day.lines.length) return;
  const [begin, end] = spanOfLine();
  const words = new URLSearchParams({ line: element('lines').value || 0 });
  if (begin !== null) words.set('from', begin);
  if (end !== null) words.set('to', end);
  if (element('preview').checked && shown?.plan?.previewed) words.set('plan', 1);
  const answer = await get(`/line?${words}`);
  const drawn = new DOMParser().parseFromString(await answer.text(), 'image/svg+xml').documentElement;
  const svg = document.importNode(drawn, true);
  if (!clock) drawNow(svg, answer.headers.get('X-Frame').split(' ').map(Number));
  element('view').replaceChildren(svg);
  widen(1);
  markTrain();
});

// If no feed reports the clock, the stroke for now is that of the clock on the wall.
function drawNow(svg, [begin, end, left, scale, top, height]) {
  const now = wallClock();
  if (now < begin || now > end) return;
  const line = document.createElementNS('http://www.w3.org/2000/svg', 'line'), x = left + Math.round((now - begin) * scale);
  for (const [name, value] of Object.entries({ class: 'now', x1: x, x2: x, y1: top - 8, y2: top + height + 8 })) line.setAttribute(name, value);
  svg.append(line);
}

// The drawing fills its place, but is not made so small that its names cannot be read.
function widen(by) {
  wide = Math.min(8, Math.max(0.5, wide * by));
  const view = element('view'), svg = view.querySelector('svg');
  if (svg) svg.style.width = `${wide * Math.max(view.clientWidth, LEGIBLE * svg.viewBox.baseVal.width)}px`;
}

function markTrain() {
  for (const train of element('view').querySelectorAll('.train')) train.classList.toggle('chosen', train.dataset.t === element('trains').value);
}

// ---- A train and a board

export const refreshTrain = oneAtATime(async () => {
  if (!day.trains.length) return;
  const train = await (await get(`/train?train=${element('trains').value || 0}`)).json();
  const rows = train.events.map(([id, at, kind, scheduled, now, late, passed, , , , cancelled]) => [
    [withNumber(at, id), kind + (passed ? ', passed' : cancelled ? ', cancelled' : ''), scheduled, now, made('span', late, late ? 'late' : '')],
    cancelled ? 'gone' : '']);
  const title = train.trip && train.trip !== train.name ? `${train.name}, trip ${train.trip}` : train.name;
  replace(body('train'), table(title, ['Stop', 'Kind', 'Scheduled', 'Now', 'Late'], rows));
  trainShown(train, rights.mayTell);
  markTrain();
});

export const refreshBoard = oneAtATime(async () => {
  if (!day.stops.length) return;
  const board = await (await get(`/board?stop=${element('stops').value}`)).json();
  const rows = board.events.map(([id, name, kind, scheduled, now, late, passed, , , , cancelled, number, shown]) => [
    [trainButton(number, name), kind + (passed ? ', passed' : cancelled ? ', cancelled' : ''), scheduled, withNumber(now, `event ${id}`), late,
      ...(board.served ? [shown] : [])], cancelled ? 'gone' : '']);
  const heads = ['Train', 'Kind', 'Scheduled', 'Now', 'Late', ...(board.served ? ["Server's board"] : [])];
  replace(body('board'), table(board.name, heads, rows));
});
