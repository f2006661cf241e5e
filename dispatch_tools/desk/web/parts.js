// What all parts of the page are made of. Names come into it as text alone.

export const element = id => document.getElementById(id);

export function made(kind, text = '', classes = '') {
  const one = document.createElement(kind);
  one.textContent = text;
  if (classes) one.className = classes;
  return one;
}

export function button(text, does, label = '', classes = '') {
  const one = made('button', text, classes);
  one.type = 'button';
  if (label) one.setAttribute('aria-label', label);
  one.addEventListener('click', does);
  return one;
}

// A cell of a table: text, or an element that is put into it.
function cell(kind, value, scope = '') {
  const one = made(kind);
  one.append(value);
  if (scope) one.scope = scope;
  return one;
}

// A table with heads; each row is its cells and the class of the row. The first cell heads its row.
export function table(caption, heads, rows) {
  const whole = made('table'), top = made('tr');
  if (caption) whole.createCaption().textContent = caption;
  top.append(...heads.map(head => cell('th', head, 'col')));
  whole.createTHead().append(top);
  const body = whole.createTBody();
  for (const [cells, classes] of rows) {
    const row = made('tr', '', classes);
    row.append(...cells.map((value, place) => place ? cell('td', value) : cell('th', value, 'row')));
    body.append(row);
  }
  return whole;
}

// Replaces what stands in an element, and keeps the focus on what has the same key there.
export function replace(into, ...children) {
  const key = into.contains(document.activeElement) ? document.activeElement.dataset.key : null;
  into.replaceChildren(...children);
  if (key) [...into.querySelectorAll('[data-key]')].find(one => one.dataset.key === key)?.focus();
}

export function withNumber(text, number) {
  const whole = made('span', text);
  whole.append(made('span', ` ${number}`, 'num'));
  return whole;
}

// Seconds of a time such as 8:05 or 25:10:30, or null.
export function secondsOf(text) {
  const found = /^(\d{1,3}):(\d{2})(?::(\d{2}))?$/.exec(text.trim());
  return found && found[2] < 60 && (found[3] || 0) < 60 ? found[1] * 3600 + found[2] * 60 + Number(found[3] || 0) : null;
}

export function timeOf(seconds, always = false) {
  const two = number => String(number).padStart(2, '0');
  const rest = seconds % 60;
  return `${Math.floor(seconds / 3600)}:${two(Math.floor(seconds / 60) % 60)}${rest || always ? `:${two(rest)}` : ''}`;
}

export const rights = { token: '', mayTell: false };

// With the token a request has one of the places that are kept for who has it.
const authorized = () => rights.token ? { Authorization: `Bearer ${rights.token}` } : {};

async function answered(path, how) {
  const answer = await fetch(path, how);
  if (!answer.ok) throw new Error((await answer.json()).error);
  return answer;
}

export const get = (path, signal = null) => answered(path, { cache: 'no-store', headers: authorized(), signal });

export const post = (path, asked) =>
  answered(path, { method: 'POST', headers: { 'Content-Type': 'application/json', ...authorized() }, body: JSON.stringify(asked) });

// Asks whoever works here; whether it shall be done all the same.
function agrees(words) {
  const question = element('question');
  question.querySelector('ul').replaceChildren(...words.map(text => made('li', text)));
  question.showModal();
  return new Promise(answer => {
    element('yes').onclick = () => { question.close(); answer(true); };
    element('no').onclick = () => question.close();
    question.onclose = () => answer(false);
  });
}

// The answer to what is posted. If the desk doubts it, somebody is asked, and it is posted again, or null is given.
export async function postAsking(path, asked) {
  const answer = await (await post(path, asked)).json();
  if (!answer.asks) return answer;
  return await agrees(answer.asks) ? postAsking(path, { ...asked, agreed: answer.agreed }) : null;
}

// What was answered, by the button that asked, and the places beside these buttons.
const besides = new Map();

export function beside(key, text) {
  besides.set(key, text);
  for (const one of document.querySelectorAll('[data-beside]')) if (one.dataset.beside === key) one.textContent = text;
}

export function placeBeside(key) {
  const one = made('span', besides.get(key) || '', 'beside');
  one.dataset.beside = key;
  return one;
}

// Does a thing whenever it is asked for, one at a time. If it is asked for meanwhile, it is done once more at the end.
export function oneAtATime(does) {
  let busy = false, again = false;
  return async () => {
    if (busy) {
      again = true;
      return;
    }
    busy = true;
    do {
      again = false;
      try {
        await does();
      } catch { /* The stream says that the desk is gone. */ }
    } while (again);
    busy = false;
  };
}

// What is read aloud: at most one thing in some seconds. What comes meanwhile is counted.
let quietUntil = 0, waiting = [];
export function say(text) {
  waiting.push(text);
  if (waiting.length === 1) setTimeout(sayNow, Math.max(0, quietUntil - Date.now()));
}

function sayNow() {
  const more = waiting.length > 1 ? ` (and ${waiting.length - 1} more)` : '';
  element('said').textContent = waiting[waiting.length - 1] + more;
  waiting = [];
  quietUntil = Date.now() + 4000;
}
