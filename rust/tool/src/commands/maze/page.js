'use strict';
(function () {
  var maze = JSON.parse(document.getElementById('maze').textContent);
  var rooms = {}, drawn = {}, corridors = {};
  maze.rooms.forEach(function (room) { rooms[room.room] = room; });
  var picture = document.querySelector('.picture');
  var space = picture.namespaceURI;
  function by(id) { return document.getElementById(id); }
  // What has happened so far: who is to move where. The last of it is now.
  var past = [], told = '', shown = -1, waiting = 0;

  function now() { return past[past.length - 1]; }
  function other(who) { return who === 'player' ? 'opponent' : 'player'; }
  function called(id) { return id === 'dungeon' ? 'the dungeon' : rooms[id].called; }
  function moves(n) { return n === 1 ? '1 move' : n + ' moves'; }

  function put(id, who, by) {
    past.push({ room: id, who: who, by: by });
    told = ''; shown = -1;
    show();
  }

  function take(k) {
    var at = now(), way = rooms[at.room].corridors[k];
    if (way) put(way.to, way.visible ? other(at.who) : at.who, { from: at.room, who: at.who, visible: way.visible });
  }

  function click(id) {
    var ways = rooms[now().room].corridors, k = ways.findIndex(function (way) { return way.to === id; });
    if (k >= 0) take(k); else put(id, 'player', null);
  }

  function back() {
    if (past.length > 1) { past.pop(); told = ''; shown = -1; show(); }
  }

  // Back to where the token was last put.
  function again() {
    while (past.length > 1 && now().by) past.pop();
    told = ''; shown = -1; show();
  }

  function who() {
    var at = now(), room = rooms[at.room];
    told = room.end === 'wins' ? 'The ' + at.who + ', who is to move, wins in ' + moves(room.moves) + '.'
      : room.end === 'draws' ? 'Nobody: played well it is a draw.'
      : room.moves === 0 ? 'The ' + other(at.who) + ' has won.'
      : 'The ' + other(at.who) + ' wins: the ' + at.who + ' is to move and can last ' + moves(room.moves) + '.';
    show();
  }

  function hint() {
    var at = now(), room = rooms[at.room], way = room.corridors[room.best];
    if (!way) { told = 'There is no move.'; show(); return; }
    shown = room.best;
    told = 'Corridor ' + (room.best + 1) + ', to ' + called(way.to) + ': ' +
      (room.end === 'wins' ? 'it wins.' : room.end === 'draws' ? keeps(room) : 'every corridor loses, this one takes longest.');
    show();
  }

  function keeps(room) {
    var count = room.corridors.filter(function (way) { return rooms[way.to].end === 'draws'; }).length;
    return count === 1 ? 'it alone keeps the draw.' : 'it keeps the draw, and so ' + (count === 2 ? 'does another.' : 'do others.');
  }

  function turn() {
    var at = now(), room = rooms[at.room];
    if (!room.corridors.length) return 'The ' + at.who + ' is in ' + called(at.room) + ' and cannot move: the ' + other(at.who) + ' wins.';
    var since = past.map(function (then) { return !then.by; }).lastIndexOf(true);
    var before = past.slice(since, -1).some(function (then) { return then.room === at.room && then.who === at.who; });
    return 'The ' + at.who + ' is to move in ' + called(at.room) + (before ? ', again.' : '.');
  }

  function list(parent, texts, make) {
    while (parent.firstChild) parent.removeChild(parent.firstChild);
    texts.forEach(function (text, k) { parent.appendChild(make(text, k)); });
  }

  function line(text) {
    var item = document.createElement('li');
    item.textContent = text;
    return item;
  }

  function wayButton(way, k) {
    var item = document.createElement('li'), button = document.createElement('button');
    button.type = 'button';
    button.textContent = (k + 1) + '. ' + (way.visible ? 'visible' : 'secret') + ', to ' + called(way.to);
    button.addEventListener('click', function () { take(k); });
    item.appendChild(button);
    return item;
  }

  function moved(then) {
    if (!then.by) return 'The token is put into ' + called(then.room) + ', and the ' + then.who + ' begins.';
    return 'The ' + then.by.who + ' goes ' + (then.by.visible ? '' : 'in secret ') + 'to ' + called(then.room) + '.';
  }

  function token(at) {
    var box = drawn[at.room].querySelector('.outline').getBBox();
    piece.setAttribute('transform', 'translate(' + (box.x + box.width - 2) + ' ' + (box.y + 2) + ')');
    piece.querySelector('text').textContent = at.who === 'player' ? 'P' : 'O';
  }

  function show() {
    var at = now();
    by('turn').textContent = turn();
    by('told').textContent = told;
    by('back').disabled = past.length < 2;
    var held = by('ways').contains(document.activeElement);
    list(by('ways'), rooms[at.room].corridors, wayButton);
    // Who goes by keys stays where the corridors are.
    if (held) (by('ways').querySelector('button') || by('back')).focus();
    list(by('moves'), past.map(moved), line);
    Object.keys(drawn).forEach(function (id) { drawn[id].classList.toggle('here', id === at.room); });
    Object.keys(corridors).forEach(function (id) {
      corridors[id].forEach(function (way, k) {
        way.classList.toggle('open', id === at.room);
        way.classList.toggle('move', id === at.room && k === shown);
      });
    });
    mark(at);
    token(at);
    into(board, drawn[at.room]);
    clearTimeout(waiting);
    if (by('alone').checked && at.who === 'opponent' && rooms[at.room].corridors.length) waiting = setTimeout(function () { take(rooms[at.room].best); }, 900);
  }

  // In the block's text: the statement of the room, or the emits of a signal.
  function mark(at) {
    var statement = String(rooms[at.room].statement), here = null;
    document.querySelectorAll('.line').forEach(function (line) {
      var is = line.getAttribute('data-statement') === statement;
      line.classList.toggle('here', is);
      line.classList.toggle('emits', line.getAttribute('data-emits') === at.room);
      if (is || !here && line.classList.contains('emits')) here = line;
    });
    if (here) into(by('program').parentNode, here);
  }

  // Scrolls a box so that what is in it stands in the middle, where it can.
  function into(box, part) {
    var outer = box.getBoundingClientRect(), inner = part.getBoundingClientRect();
    box.scrollBy(inner.left + inner.width / 2 - outer.left - outer.width / 2, inner.top + inner.height / 2 - outer.top - outer.height / 2);
  }

  // By default the maze is as wide as its place, within reason; the whole of it may be much smaller.
  function size(next) {
    scale = Math.min(6, Math.max(0.2, next));
    picture.style.width = natural.width * scale + 'px';
    picture.style.height = natural.height * scale + 'px';
    if (past.length) into(board, drawn[now().room]);
  }

  function wide() { size(Math.min(2.2, Math.max(1, (board.clientWidth - 2) / natural.width))); }
  function whole() { size(Math.min(board.clientWidth / natural.width, board.clientHeight / natural.height)); }
  function larger() { size(scale * 1.2); }
  function smaller() { size(scale / 1.2); }

  // A plain box behind each outline, for when it is hidden who wins.
  function prepare(group) {
    var id = group.getAttribute('data-room'), outline = group.querySelector('.outline'), box = outline.getBBox(), plain = document.createElementNS(space, 'rect');
    drawn[id] = group;
    ['x', 'y', 'width', 'height'].forEach(function (side) { plain.setAttribute(side, box[side]); });
    plain.setAttribute('class', 'plain');
    group.insertBefore(plain, outline);
    group.setAttribute('tabindex', '0');
    group.setAttribute('role', 'button');
    group.addEventListener('click', function () { if (!String(window.getSelection())) click(id); });
    group.addEventListener('keydown', function (event) {
      if (event.key === 'Enter' || event.key === ' ') { event.preventDefault(); click(id); }
    });
    name();
  }

  // What a room is called to a reader who points at it or listens.
  function name() {
    var hides = by('hide').checked;
    Object.keys(drawn).forEach(function (id) {
      var words = called(id) + (hides ? '' : ': ' + rooms[id].end);
      drawn[id].setAttribute('aria-label', words);
      drawn[id].querySelector('title').textContent = words;
    });
  }

  function light() {
    var root = document.documentElement, dark = window.matchMedia('(prefers-color-scheme:dark)').matches;
    var chosen = root.getAttribute('data-light');
    var isLight = chosen ? chosen === 'on' : !dark;
    root.setAttribute('data-light', isLight ? 'off' : 'on');
  }

  var board = by('board'), natural = picture.viewBox.baseVal, scale = 1;
  // Where there is little height, the maze has it.
  if (window.innerHeight < 760) by('about').removeAttribute('open');
  wide();
  picture.removeAttribute('role');
  picture.querySelectorAll('.room').forEach(prepare);
  picture.querySelectorAll('.corridor').forEach(function (way) {
    var from = way.getAttribute('data-from');
    (corridors[from] = corridors[from] || []).push(way);
  });
  var piece = document.createElementNS(space, 'g');
  piece.setAttribute('class', 'token');
  piece.innerHTML = '<circle r="11"/><text y="4.5" font-size="13" text-anchor="middle"></text>';
  picture.appendChild(piece);

  by('who').addEventListener('click', who);
  by('hint').addEventListener('click', hint);
  by('back').addEventListener('click', back);
  by('again').addEventListener('click', again);
  by('smaller').addEventListener('click', smaller);
  by('larger').addEventListener('click', larger);
  by('fit').addEventListener('click', whole);
  by('alone').addEventListener('change', show);
  by('hide').addEventListener('change', function () { document.body.classList.toggle('hides', this.checked); name(); });
  by('light').addEventListener('click', light);
  by('print').addEventListener('click', function () { window.print(); });
  document.addEventListener('keydown', function (event) {
    if (event.ctrlKey || event.metaKey || event.altKey) return;
    if (event.key >= '1' && event.key <= '9') take(Number(event.key) - 1);
    var keys = { w: who, m: hint, b: back, '+': larger, '=': larger, '-': smaller, 0: whole }, act = keys[event.key.toLowerCase()];
    if (act) act();
  });

  // Begin in the first drawn room, else in the first output that wins, else in the first room.
  var signals = maze.rooms.filter(function (room) { return room.room[0] === 's' && room.corridors.length; });
  var first = signals.filter(function (room) { return room.end === 'draws'; })[0] || signals.filter(function (room) { return room.end === 'wins' && room.moves > 1; })[0] || signals[0];
  put((first || maze.rooms[0]).room, 'player', null);
}());
