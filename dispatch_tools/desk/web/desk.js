// The desk: a stream of pictures of the screen, and what is looked up when one has changed.
import { beside, element, get, post, rights, say } from './parts.js';
import * as seen from './seen.js';
import * as done from './done.js';

let screen = null, announced = new Set(), listening = null;

function show(text) {
  const before = screen;
  screen = JSON.parse(text);
  element('link').textContent = '';
  seen.showScreen(screen);
  done.showTold(screen);
  announce(before);
  if (!before || before.version !== screen.version) {
    seen.refreshLine();
    seen.refreshBoard();
    seen.refreshTrain();
  }
  else if (previewOf(before) !== previewOf(screen)) seen.refreshLine();
  done.showPlan(screen);
  done.showServer(screen);
  done.showLocks(screen);
  document.documentElement.dataset.version = screen.version;
}

// Which plan the diagram can show.
const previewOf = ({ plan }) => plan?.previewed ? plan.line : 0;

// New alerts are read aloud, but not those that stood there when the page was opened.
function announce(before) {
  const now = new Set(screen.alerts.map(({ kind, key }) => `${kind} ${key}`));
  const fresh = screen.alerts.filter(({ kind, key }) => !announced.has(`${kind} ${key}`) && key !== 'more');
  if (before && fresh.length) say(fresh.length > 1 ? `${fresh.length} new alerts. ${fresh[0].words}` : fresh[0].words);
  if (before && fresh.length && element('sound').checked) sound();
  announced = now;
}

// A short tone.
function sound() {
  const audio = new AudioContext(), tone = audio.createOscillator();
  tone.connect(audio.destination);
  tone.onended = () => audio.close();
  tone.start();
  tone.stop(audio.currentTime + 0.2);
}

// Takes each picture of a stream, until the stream ends.
async function follow(answer) {
  const reader = answer.body.pipeThrough(new TextDecoderStream()).getReader();
  for (let rest = ''; ;) {
    const { value, done: isOver } = await reader.read();
    if (isOver) return;
    const parts = (rest + value).split('\n\n');
    rest = parts.pop();
    for (const part of parts) if (part.startsWith('data: ')) show(part.slice(6));
  }
}

// Listens from now on, in place of what listened before.
async function listen() {
  listening?.abort();
  const mine = listening = new AbortController();
  while (!mine.signal.aborted) {
    try {
      await follow(await get('/events', mine.signal));
    } catch { /* It is said below. */ }
    if (mine.signal.aborted) return;
    const since = new Date().toTimeString().slice(0, 8);
    if (!element('link').textContent) element('link').textContent = `The desk does not answer since ${since}. What is shown is from before.`;
    await new Promise(done => setTimeout(done, 1000));
  }
}

async function useToken(token) {
  rights.token = token;
  try {
    await post('/token', {});
    rights.mayTell = true;
    sessionStorage.setItem('token', token);
    listen();
  } catch (refused) {
    rights.mayTell = false;
    rights.token = '';
    sessionStorage.removeItem('token');
    beside('rights', `The token is not taken: ${refused.message}.`);
    say(`The token is not taken: ${refused.message}.`);
  }
  element('rights').hidden = rights.mayTell;
  element('leave').hidden = !rights.mayTell;
  done.showRights();
  seen.refreshTrain();
}

async function begin() {
  rights.token = sessionStorage.getItem('token') || '';
  const day = await (await get('/day')).json();
  seen.begin(day);
  done.begin(day, () => screen);
  element('rights').hidden = !day.tells;
  element('rights').addEventListener('submit', event => {
    event.preventDefault();
    useToken(element('token').value);
    element('token').value = '';
  });
  element('leave').addEventListener('click', () => {
    sessionStorage.removeItem('token');
    location.reload();
  });
  element('numbers').addEventListener('change', event => document.body.classList.toggle('numbers', event.target.checked));
  listen();
  if (day.tells && rights.token) useToken(rights.token);
}

begin();
