'use strict';
const DAY = JSON.parse(document.getElementById('day').textContent);
// What the page keeps as differences to the one before, summed up again.
const sums = numbers => {
  let sum = 0;
  return numbers.map(number => (sum += number));
};
const times = sums(DAY.times), ids = sums(DAY.ids), places = sums(DAY.stops);
const events = ids.map((id, place) => ({
  id, time: times[place], now: times[place] + DAY.late[place], stop: places[place], arrival: DAY.arrivals[place] === '1',
}));
const trains = DAY.trains.map(sums);
const passed = new Set(DAY.passed);
const gone = new Set(DAY.gone);
const trainOf = new Map();
trains.forEach((train, number) => train.forEach(place => trainOf.set(place, number)));
const byId = new Map(events.map((event, place) => [event.id, place]));
const atStop = new Map();
events.forEach((event, place) => {
  if (!atStop.has(event.stop)) atStop.set(event.stop, []);
  atStop.get(event.stop).push(place);
});

const element = id => document.getElementById(id);
const stopName = stop => DAY.names[stop] || `Stop ${stop}`;
const trainName = number => DAY.labels[number] || `Train ${events[trains[number][0]].id}`;
const clock = seconds => {
  const two = number => String(number).padStart(2, '0');
  return `${Math.floor(seconds / 3600)}:${two(Math.floor(seconds / 60) % 60)}:${two(seconds % 60)}`;
};

// ---- Zoom and pan

const view = element('view');
let shown = view.querySelector('.line svg');
const boxes = new Map();
const wholeBox = svg => svg.getAttribute('data-all').split(' ').map(Number);
for (const svg of view.querySelectorAll('svg')) {
  svg.setAttribute('data-all', svg.getAttribute('viewBox'));
  svg.setAttribute('preserveAspectRatio', 'xMidYMid meet');
  svg.removeAttribute('width');
  svg.removeAttribute('height');
  // A picture has no parts that can be reached; a group has.
  svg.setAttribute('role', 'group');
  for (const group of svg.querySelectorAll('.train')) {
    group.setAttribute('role', 'img');
    group.setAttribute('tabindex', '-1');
    group.setAttribute('aria-label', group.querySelector('title').textContent);
  }
}

function setBox(svg, box) {
  boxes.set(svg, box);
  svg.setAttribute('viewBox', box.join(' '));
}

function boxOf(svg) {
  return boxes.get(svg) || wholeBox(svg);
}

function zoom(by, x = 0.5, y = 0.5) {
  const [left, top, width, height] = boxOf(shown);
  const [, , most] = wholeBox(shown);
  const wide = Math.min(most, Math.max(40, width / by));
  const high = height * wide / width;
  setBox(shown, [left + (width - wide) * x, top + (height - high) * y, wide, high]);
}

function pan(x, y) {
  const [left, top, width, height] = boxOf(shown);
  setBox(shown, [left + x * width, top + y * height, width, height]);
}

function startBox(svg) {
  // A long day begins with its first trains, as large as the window shows them; a short one is shown whole.
  const [left, top, width, height] = wholeBox(svg);
  const wide = Math.max(height * view.clientWidth / Math.max(1, view.clientHeight), Math.min(width, 1.1 * view.clientWidth));
  setBox(svg, wide < width ? [left, top, wide, height] : [left, top, width, height]);
}

// The wheel alone scrolls the page.
view.addEventListener('wheel', event => {
  if (!event.ctrlKey && !event.metaKey) return;
  event.preventDefault();
  const box = view.getBoundingClientRect();
  zoom(event.deltaY < 0 ? 1.2 : 1 / 1.2, (event.clientX - box.left) / box.width, (event.clientY - box.top) / box.height);
}, { passive: false });

const pointers = new Map();
let down = null;
view.addEventListener('pointerdown', event => {
  view.setPointerCapture(event.pointerId);
  pointers.set(event.pointerId, event);
  down = pointers.size === 1 ? event : null;
  view.classList.add('moving');
});
view.addEventListener('pointerup', event => {
  if (!down || Math.hypot(event.clientX - down.clientX, event.clientY - down.clientY) > 4) return;
  const group = document.elementFromPoint(event.clientX, event.clientY)?.closest('.train');
  if (group) tell(chosenTrain(Number(group.dataset.t)));
});
view.addEventListener('pointermove', event => {
  const before = pointers.get(event.pointerId);
  if (!before) return;
  const box = view.getBoundingClientRect();
  if (pointers.size === 2) {
    const [other] = [...pointers.values()].filter(pointer => pointer.pointerId !== event.pointerId);
    const apart = from => Math.hypot(from.clientX - other.clientX, from.clientY - other.clientY) || 1;
    zoom(apart(event) / apart(before));
    pan((before.clientX - event.clientX) / 2 / box.width, (before.clientY - event.clientY) / 2 / box.height);
  } else {
    pan((before.clientX - event.clientX) / box.width, (before.clientY - event.clientY) / box.height);
  }
  pointers.set(event.pointerId, event);
});
for (const end of ['pointerup', 'pointercancel']) {
  view.addEventListener(end, event => {
    pointers.delete(event.pointerId);
    if (!pointers.size) view.classList.remove('moving');
  });
}

const keys = {
  '+': () => zoom(1.3), '=': () => zoom(1.3), '-': () => zoom(1 / 1.3), '0': () => setBox(shown, wholeBox(shown)),
  n: () => stepTrain(1), p: () => stepTrain(-1), N: () => stepTrain(1), P: () => stepTrain(-1),
  ArrowLeft: () => pan(-0.1, 0), ArrowRight: () => pan(0.1, 0), ArrowUp: () => pan(0, -0.1), ArrowDown: () => pan(0, 0.1),
};
view.addEventListener('keydown', event => {
  if (shown && keys[event.key] && !event.ctrlKey && !event.metaKey && !event.altKey) {
    event.preventDefault();
    keys[event.key]();
  }
});
for (const button of document.querySelectorAll('[data-zoom]')) {
  const does = { in: () => zoom(1.3), out: () => zoom(1 / 1.3), all: () => setBox(shown, wholeBox(shown)) };
  button.addEventListener('click', () => shown && does[button.dataset.zoom]());
}

function showLine(place) {
  for (const line of view.querySelectorAll('.line')) line.hidden = line.id !== `line${place}`;
  shown = element(`line${place}`).querySelector('svg');
  element('lines').value = place;
  if (!boxes.has(shown)) startBox(shown);
}
element('lines').addEventListener('change', event => showLine(event.target.value));
if (shown) startBox(shown);
addEventListener('resize', () => { if (shown && boxOf(shown).join() === wholeBox(shown).join()) startBox(shown); });

// ---- The board of a stop and the run of a train

const stops = [...atStop.keys()].sort((a, b) => a - b);
for (const stop of stops) element('stops').append(new Option(stopName(stop), stop));
for (const number of trains.keys()) element('trains').append(new Option(trainName(number), number));

function cell(kind, text, scope, name) {
  const made = document.createElement(kind);
  made.textContent = text;
  if (scope) made.scope = scope;
  if (name) made.className = name;
  return made;
}

// A table of events into an element; `at` heads the column of where each is, and `where` says it.
function showEvents(into, caption, shownPlaces, at, where, found) {
  const table = document.createElement('table'), heading = document.createElement('tr');
  heading.append(...['Event', at, 'Kind', 'Scheduled', 'Now', 'Late'].map(text => cell('th', text, 'col')));
  table.createCaption().textContent = caption;
  table.createTHead().append(heading);
  const body = table.createTBody();
  for (const place of shownPlaces) {
    const event = events[place], isGone = gone.has(place), row = document.createElement('tr');
    const late = isGone ? 0 : Math.max(0, event.now - event.time);
    const kind = (event.arrival ? 'arrival' : 'departure') + (isGone ? ', cancelled' : passed.has(place) ? ', passed' : '');
    row.append(
      cell('th', event.id, 'row'), cell('td', where(place)), cell('td', kind), cell('td', clock(event.time)),
      cell('td', isGone ? '–' : clock(event.now)), cell('td', late ? clock(late) : '', '', late >= 60 ? 'late' : ''),
    );
    row.classList.toggle('found', place === found);
    row.classList.toggle('gone', isGone);
    body.append(row);
  }
  into.replaceChildren(table);
  const seen = table.querySelector('.found');
  into.scrollTop = seen ? seen.offsetTop - into.clientHeight / 2 : 0;
}

function showBoard(stop, found) {
  element('stops').value = stop;
  const sorted = [...atStop.get(stop)].sort((a, b) => events[a].now - events[b].now || a - b);
  showEvents(element('board'), stopName(stop), sorted, 'Train', place => (trainOf.has(place) ? trainName(trainOf.get(place)) : ''), found);
}

function showRun(number, found) {
  element('trains').value = number;
  const trip = DAY.trips[number] ? `, trip ${DAY.trips[number]}` : '';
  showEvents(element('run'), trainName(number) + trip, trains[number], 'Stop', place => stopName(events[place].stop), found);
}

element('stops').addEventListener('change', event => showBoard(Number(event.target.value)));
element('trains').addEventListener('change', event => tell(chosenTrain(Number(event.target.value))));
if (stops.length) showBoard(stops[0]);
if (trains.length) showRun(0);

// ---- Finding

function unmark() {
  for (const old of document.querySelectorAll('.train.found')) old.classList.remove('found');
  view.classList.remove('dim');
}

// Marks a train, and moves to it where a line that is drawn has it.
function showTrain(number) {
  const mark = `[data-t="${number}"]`, group = shown?.querySelector(mark) || view.querySelector(mark);
  if (!group) return false;
  showLine(group.closest('.line').id.slice(4));
  for (const same of view.querySelectorAll(mark)) same.classList.add('found');
  view.classList.add('dim');
  const box = group.getBBox(), [, , , all] = wholeBox(shown);
  const wide = Math.max(box.width * 1.6, 300), high = wide * view.clientHeight / view.clientWidth;
  setBox(shown, [box.x + box.width / 2 - wide / 2, Math.min(box.y, all - high) - 20, wide, Math.max(high, box.height + 40)]);
  return true;
}

// Shows a train in all places, and says where and when it runs.
function chosenTrain(number) {
  unmark();
  const left = trains[number].filter(place => !gone.has(place)), isWhole = left.length === trains[number].length;
  const isDrawn = showTrain(number);
  showRun(number);
  const trip = DAY.trips[number] ? ` (trip ${DAY.trips[number]})` : '', drawn = isDrawn ? '' : ' It runs on no line that is drawn.';
  if (!left.length) return `${trainName(number)}${trip}: cancelled.`;
  const first = events[left[0]], last = events[left.at(-1)];
  return `${trainName(number)}${trip}: ${stopName(first.stop)} ${clock(first.now)} to ${stopName(last.stop)} ${clock(last.now)}, ` +
    `${clock(Math.max(0, last.now - last.time))} late at its end.${isWhole ? '' : ' A part of it is cancelled.'}${drawn}`;
}

// The train of the line that comes so many behind the marked one, in the order in which they are drawn.
function stepTrain(by) {
  const groups = [...shown.querySelectorAll('.train')];
  if (!groups.length) return;
  const at = groups.findIndex(group => group.classList.contains('found'));
  const next = groups[at < 0 ? (by > 0 ? 0 : groups.length - 1) : (at + by + groups.length) % groups.length];
  const said = chosenTrain(Number(next.dataset.t));
  next.focus({ preventScroll: true });
  tell(said);
}

function findTrain(number) {
  const said = chosenTrain(number);
  showBoard(events[trains[number][0]].stop, trains[number][0]);
  return said;
}

function findEvent(id) {
  const place = byId.get(id);
  if (place === undefined) return null;
  const event = events[place];
  const train = trainOf.has(place) ? ` ${chosenTrain(trainOf.get(place))}` : '';
  if (train) showRun(trainOf.get(place), place);
  showBoard(event.stop, place);
  return `Event ${id}: ${event.arrival ? 'arrival' : 'departure'} at ${stopName(event.stop)}, scheduled ${clock(event.time)}, now ${clock(event.now)}.${train}`;
}

function findStop(stop) {
  showBoard(stop);
  element('h-board').scrollIntoView();
  return `${stopName(stop)}: ${atStop.get(stop).length} events.`;
}

function find(wanted) {
  const text = wanted.trim().toLowerCase();
  const number = text.match(/^(?:(train|event|stop) +)?([0-9]+)$/);
  const firstTrain = fits => {
    const found = trains.findIndex((_, place) => fits(trainName(place).toLowerCase(), (DAY.trips[place] || '').toLowerCase()));
    return found < 0 ? null : findTrain(found);
  };
  const named = firstTrain(name => name === text);
  if (named) return named;
  const isTrip = wantedTrip => firstTrain((_, trip) => trip === wantedTrip);
  const asTrip = text.match(/^trip +(.+)$/);
  if (asTrip) return isTrip(asTrip[1]);
  if (number) {
    const id = Number(number[2]);
    if (number[1] === 'stop') return atStop.has(id) ? findStop(id) : null;
    if (number[1] === 'train') return byId.has(id) && trainOf.has(byId.get(id)) ? findTrain(trainOf.get(byId.get(id))) : null;
    return findEvent(id) || (number[1] ? null : isTrip(text));
  }
  const stop = stops.find(one => stopName(one).toLowerCase() === text);
  const whole = stop === undefined ? isTrip(text) : findStop(stop);
  if (whole) return whole;
  const part = stops.find(one => stopName(one).toLowerCase().includes(text));
  return part === undefined ? firstTrain((name, trip) => name.includes(text) || trip.includes(text)) : findStop(part);
}

function tell(said) {
  element('found').textContent = element('marked').textContent = said;
}

element('find').addEventListener('submit', event => {
  event.preventDefault();
  unmark();
  const wanted = element('wanted').value;
  tell(wanted.trim() ? find(wanted) || `Nothing is called “${wanted}”.` : '');
});
