'use strict';
const data = JSON.parse(document.getElementById('data').textContent);
const detail = document.getElementById('detail');
const sources = document.getElementById('sources');
const list = document.getElementById('groups');
const filter = document.getElementById('filter');
const rows = [...list.querySelectorAll('li[id]')];
const headings = [...list.querySelectorAll('li.file')];
const tabs = [...document.querySelectorAll('[role=tab]')];
const texts = rows.map((row, number) => {
  const {store, kind, object, message, calls} = data.groups[number];
  return [kind, object, message, store?.file, ...[store, ...calls].map(place => place?.function), row.textContent].join(' ').toLowerCase();
});
let chosen = -1;
let marked = null;

function element(name, text, attributes = {}) {
  const made = document.createElement(name);
  if (text !== undefined) made.textContent = text;
  for (const [key, value] of Object.entries(attributes)) made.setAttribute(key, value);
  return made;
}

function rowOf(place) {
  return place && document.getElementById(`f${data.files[place.file]}l${place.line}`);
}

function link(place, text) {
  const made = element('a', text || `${place.file}:${place.line}:${place.column}`, {href: `#f${data.files[place.file]}l${place.line}`});
  made.addEventListener('click', event => { event.preventDefault(); goTo(place); });
  return made;
}

function goTo(place) {
  const row = rowOf(place);
  if (!row) return;
  marked?.classList.remove('chosen');
  marked = row;
  row.classList.add('chosen');
  toMiddle(sources, row);
}

// Scrolls a pane, and not the page, so that a row of it is in its middle.
function toMiddle(pane, row) {
  const [outer, inner] = [pane, row].map(node => node.getBoundingClientRect());
  pane.scrollTop += inner.top - outer.top - (outer.height - inner.height) / 2;
}

function item(list, before, place, after = '') {
  const made = element('li', before);
  made.append(link(place), after);
  list.append(made);
}

// One event of a cache line: its bytes are durable (d), stored (s), flushed (f), or as they were before (empty).
function step(state, [, kind, offset, size]) {
  return state.map((old, byte) => {
    if (kind === 'store') return byte >= offset && byte < offset + size ? 's' : old;
    if (kind === 'flush') return old === 's' ? 'f' : old;
    if (kind === 'fence') return old === 'f' ? 'd' : old;
    return old;
  });
}

function bytesRow(label, where, state, mark, name) {
  const row = element('tr', undefined, name ? {class: name} : {});
  row.append(element('td', label), element('td', where.split('/').pop(), {title: where}));
  const bytes = element('div', undefined, {class: 'bytes'});
  state.forEach((letter, byte) => {
    const hit = mark && byte >= mark[0] && byte < mark[0] + mark[1] ? ' hit' : '';
    bytes.append(element('i', undefined, {class: letter + hit}));
  });
  const last = element('td');
  last.append(bytes);
  row.append(last);
  return row;
}

const letters = state => [...state].map(letter => letter === '.' ? '' : letter);

// A row for what is not shown one by one: fences that change nothing, or earlier events.
function foldedRow(text) {
  const row = element('tr', undefined, {class: 'folded'});
  row.append(element('td', text, {colspan: 3}));
  return row;
}

function picture(group) {
  const table = element('table', undefined, {class: 'picture'});
  const history = group.history;
  const offset = group.address - history.address;
  const mark = [offset, Math.min(group.size, 64 - offset)];
  const earlier = number => `${number} earlier ${number === 1 ? 'event' : 'events'}`;
  function add(state, event) {
    const [entry, kind, , size, where] = event;
    if (kind === 'idle') {
      table.append(foldedRow(`${size} ${size === 1 ? 'fence' : 'fences'} without effect`));
      return state;
    }
    const now = step(state, event);
    const label = kind === 'store' ? `store ${size}` : kind;
    table.append(bytesRow(label, where || `entry ${entry}`, now, mark, entry === group.entry ? 'report' : ''));
    return now;
  }
  for (const {left_out, state, event} of history.kept) {
    if (left_out) table.append(foldedRow(earlier(left_out)));
    add(letters(state), event);
  }
  let state = letters(history.state);
  if (history.left_out) table.append(foldedRow(earlier(history.left_out)));
  for (const event of history.events) state = add(state, event);
  const check = group.check ? `${group.check.file}:${group.check.line}` : '';
  table.append(bytesRow(group.at_end ? 'end of run' : 'check', check, state, mark, 'report'));
  return table;
}

function legend() {
  const made = element('p', undefined, {class: 'legend hint'});
  for (const [name, text] of [['old', 'as at the start'], ['s', 'stored'], ['f', 'flushed'], ['d', 'durable']]) {
    const part = element('span');
    part.append(element('i', undefined, {class: name}), text);
    made.append(part);
  }
  return made;
}

function fallback(text) {
  const area = element('textarea');
  area.value = text;
  document.body.append(area);
  area.select();
  const done = document.execCommand('copy');
  area.remove();
  return done;
}

async function copy(button, text) {
  let done = true;
  try { await navigator.clipboard.writeText(text); } catch { done = fallback(text); }
  button.textContent = done ? 'Copied' : 'Not copied';
  setTimeout(() => { button.textContent = 'Copy'; }, 1500);
}

function suggestion({by_hand, reason, text, place, statements}) {
  const made = element('p', `Suggestion${by_hand ? ` (by hand: ${reason})` : ''}: ${text}. `, {class: 'suggestion'});
  if (place) made.append(link(place));
  if (!by_hand) {
    const button = element('button', 'Copy', {class: 'copy', title: statements.join('\n')});
    button.addEventListener('click', () => copy(button, statements.join('\n')));
    made.append(' ', button);
  }
  return made;
}

function shownIn(inputs) {
  const made = element('p', 'Shown by: ', {class: 'hint'});
  made.append(inputs.map(({input, numbers, reports}) => {
    const words = numbers.slice(0, 8).join(' ') + (numbers.length > 8 ? ' ..' : '');
    return `input ${input}${words ? ` (${words})` : ''}: ${reports}`;
  }).join('; '));
  return made;
}

function show(number) {
  const group = data.groups[number];
  const close = element('button', '×', {class: 'close', 'aria-label': 'Close'});
  close.addEventListener('click', hide);
  const path = element('ol');
  if (group.store) item(path, 'the store: ', group.store, ` in ${group.store.function}`);
  if (group.flush) item(path, 'the flush that no fence follows: ', group.flush);
  if (group.flush_note) item(path, `${group.flush_note.message}: `, group.flush_note.place);
  for (const place of group.calls) item(path, 'called by ', place, ` in ${place.function}`);
  if (group.check) item(path, group.at_end ? 'the return of main: ' : 'the check: ', group.check);
  detail.replaceChildren(close, element('h3', group.message), path);
  if (group.suggestion) detail.append(suggestion(group.suggestion));
  if (group.inputs.length > 1) detail.append(shownIn(group.inputs));
  const where = `Cache line of the first report: entry ${group.entry}, checked at entry ${group.check_entry}`;
  detail.append(element('h4', where), legend(), picture(group));
  detail.append(element('p', `${group.sites.join(' ')}`, {class: 'hint'}));
  detail.hidden = false;
  detail.scrollTop = 0;
}

function hide() {
  detail.hidden = true;
}

function choose(number, focus) {
  if (number < 0 || number >= data.groups.length) return;
  document.getElementById(`g${chosen}`)?.classList.remove('chosen');
  chosen = number;
  const row = document.getElementById(`g${number}`);
  row.classList.add('chosen');
  toMiddle(list.parentElement, row);
  if (focus) row.firstElementChild.focus({preventScroll: true});
  show(number);
  goTo(data.groups[number].store);
  history.replaceState(null, '', `#${data.groups[number].name}`);
}

function next(step) {
  for (let number = chosen + step; number >= 0 && number < rows.length; number += step) {
    if (!rows[number].hidden) return choose(number, true);
  }
}

function openTab(name, isUsers) {
  for (const tab of tabs) {
    const open = tab.getAttribute('aria-controls') === name;
    tab.setAttribute('aria-selected', open);
    document.getElementById(tab.getAttribute('aria-controls')).hidden = !open;
  }
  if (name === 'findings' && chosen >= 0) goTo(data.groups[chosen].store);
  if (isUsers) history.replaceState(null, '', `#${name === 'findings' && chosen >= 0 ? data.groups[chosen].name : name}`);
}

document.addEventListener('click', event => {
  const button = event.target.closest('button');
  if (!button) return;
  if (button.dataset.copy) copy(button, document.getElementById(button.dataset.copy).textContent);
  if (button.role === 'tab' || button.getAttribute('role') === 'tab') openTab(button.getAttribute('aria-controls'), true);
  if (button.dataset.group === undefined) return;
  const all = (button.dataset.all || button.dataset.group).split(' ').map(Number);
  choose(all[(all.indexOf(chosen) + 1) % all.length]);
});

document.addEventListener('keydown', event => {
  if (event.ctrlKey || event.metaKey || event.altKey) return;
  if (event.key === 'Escape') { hide(); filter.blur(); return; }
  if (event.target === filter) return;
  if (event.key === 'j' || event.key === 'ArrowDown') next(1);
  else if (event.key === 'k' || event.key === 'ArrowUp') next(-1);
  else if (event.key === '/') filter.focus();
  else return;
  event.preventDefault();
});

filter.addEventListener('input', () => {
  const wanted = filter.value.toLowerCase();
  rows.forEach((row, number) => {
    const hidden = !texts[number].includes(wanted);
    if (row.hidden !== hidden) row.hidden = hidden;
  });
  for (const heading of headings) {
    let row = heading.nextElementSibling;
    while (row && row.id && row.hidden) row = row.nextElementSibling;
    heading.hidden = !row || !row.id;
  }
});

// The address names a tab, or a group by its fingerprint; otherwise the first group is chosen.
function start() {
  const named = decodeURIComponent(location.hash.slice(1));
  const tab = tabs.find(tab => tab.getAttribute('aria-controls') === named);
  const group = data.groups.findIndex(group => group.name === named);
  const numbered = /^g(\d+)$/.exec(named);
  const first = tabs.find(tab => tab.getAttribute('aria-selected') === 'true').getAttribute('aria-controls');
  const open = tab ? named : group >= 0 || numbered ? 'findings' : first;
  openTab(open);
  if (open !== 'findings') return;
  choose(group >= 0 ? group : numbered ? Number(numbered[1]) : 0);
}

start();
window.addEventListener('hashchange', start);
