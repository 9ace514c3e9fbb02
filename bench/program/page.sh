#!/usr/bin/env bash
# Opens the pages that `pg page` writes of some examples in a browser, Chromium without a window, and uses them as a reader does:
# plays games by button and by arrow key, goes to moves of the games, turns the board, walks to cuts, to a reference and to where a page stops, goes back, and comes by an
# address. At each place the words are to be those of `pg why`, and the board that on which `pg games` sees the moves so
# far end; where all moves are looked at, they are to be those of `pg moves`, in that order, and what is said of each that of
# `pg why`. Quiet where all is so; else prints each difference, and ends with status 1. Without a browser it prints one
# line, which begins with `not tried: `, and ends with status 0. PG may name the program, CHROMIUM the browser.
#
#   bench/program/page.sh                     tries the pages
#   bench/program/page.sh --pictures FOLDER   makes pictures of them in FOLDER, wide and at a telephone's width
. "$(dirname "$(readlink -f "$0")")/begin.sh"
places=0 rows=0 captions=()

fail() {
  echo "$name: $1" >&2
  wrong=1
}

# Has the browser open a page, with these words, in a profile of its own; the page's clock runs as fast as it can.
browse() {
  HOME=$work timeout 120 "$browser" --headless --no-sandbox --disable-gpu --hide-scrollbars --user-data-dir="$work/profile" \
    --virtual-time-budget=60000 "$@" 2>"$work/err"
}

not_tried() {
  echo "not tried: the pages of \`pg page\`, since $1"
  exit 0
}

# What the reader does, as a script behind that of the page. It takes the STEPS, waits a moment after each, and leaves as the text of
# the page what stood there then, in fields parted by bars.
cat >"$work/reader" <<'END_OF_READER'
<script>
(function () {
  var steps = STEPS, said = [];

  function part(id) { return document.getElementById(id); }
  function all(selector, parent) { return Array.prototype.slice.call((parent || document).querySelectorAll(selector)); }
  function tell() { said.push(Array.prototype.join.call(arguments, '|')); }
  function address() { return decodeURIComponent(location.hash.slice(1)); }
  function tellPlace() { tell('PLACE', address(), part('viewer').dataset.placement, part('words').textContent); }

  function press(key) { document.dispatchEvent(new KeyboardEvent('keydown', { key: key, bubbles: true, cancelable: true })); }

  // Clicks the button with that text, or that number.
  function click(selector, text) {
    var found = all(selector).filter(function (button, i) { return text === String(i + 1) || button.textContent === text; })[0];
    if (found) found.click(); else tell('MISSING', selector, text);
  }

  // Clicks the last move of the game with that number, or its move with the number behind.
  function clickGame(words) {
    var item = all('#games li')[words[1] - 1], buttons = item ? all('button', item) : [];
    var button = buttons[words[2] ? words[2] - 1 : buttons.length - 1];
    if (button) button.click(); else tell('MISSING', 'game', words.slice(1).join(' '));
  }

  // The squares that are marked, as the letters and digits beside the board name them.
  function marked() {
    var labels = all('#board .labels text'), isTurned = labels.length === 16, files = isTurned ? 'hgfedcba' : 'abcdefgh';
    if (isTurned && (labels[0].textContent !== '1' || labels[1].textContent !== 'h' || all('#board use')[0].getAttribute('href') !== '#field'))
      return 'no letters';
    return all('#board .last').map(function (square) {
      var y = +square.getAttribute('y');
      return files.charAt(+square.getAttribute('x')) + (isTurned ? y + 1 : 8 - y);
    }).join('-');
  }

  function tellRows(rights) {
    tell('ROWS', address(), part('viewer').dataset.placement, rights);
    all('#moves .rows').forEach(function (list) {
      var title = list.parentNode.tagName === 'DETAILS' && list.parentNode.querySelector('summary');
      all('li', list).forEach(function (row) {
        tell('ROW', title ? title.textContent : '', row.querySelector('button').textContent, row.querySelector('span').textContent);
      });
    });
    tell('END');
  }

  // Takes a step; whether it is to be taken again.
  function take(step) {
    var words = step.split(' '), rest = words.slice(1).join(' ');
    switch (words[0]) {
      case 'game': clickGame(words); break;
      case 'unfold': all('details').forEach(function (list) { list.open = true; }); break;
      case 'marked': if (marked() !== rest) tell('MISSING', 'marks on ' + rest, marked()); break;
      case 'here': if (all('#games .here').map(function (button) { return button.textContent; }).join() !== rest) tell('MISSING', 'move', rest); break;
      case 'titles': tell('TITLES', document.title, document.querySelector('h1').textContent); break;
      case 'move': click('#moves .move', rest); break;
      case 'line': click('#line button', rest); break;
      case 'press': press(rest); break;
      case 'play': press('ArrowRight'); break;
      case 'address': location.hash = rest; break;
      case 'history': history.back(); break;
      case 'rows': tellRows(rest); break;
      case 'asks': all('#moves code').forEach(function (code) { tell('ASKS', code.textContent); }); break;
      case 'reads': tell('READS', part('verdict').textContent, all('#shorter li').length); break;
      default: click('#' + words[0], '1');
    }
    return words[0] === 'play' && !part('next').disabled;
  }

  function go(i) {
    var isAgain;
    if (i < steps.length) {
      isAgain = take(steps[i]);
      setTimeout(function () { tellPlace(); go(isAgain ? i : i + 1); }, 50);
    } else {
      document.documentElement.innerHTML = '<pre></pre>';
      document.querySelector('pre').textContent = '\n' + said.join('\n') + '\n';
    }
  }

  setTimeout(function () { tellPlace(); go(0); }, 50);
}());
</script>
END_OF_READER

# Opens the page $work/page.html at the address $1, and has the reader take the steps $2, parted by semicolons.
read_page() {
  local steps
  steps=$(sed "s/[^;]*/'&'/g; s/;/, /g" <<<"$2")
  { cat "$work/page.html"; sed "s|STEPS|[$steps]|" "$work/reader"; } >"$work/read.html"
  browse --dump-dom "file://$work/read.html${1:+#${1// /%20}}" | sed -n '/<pre>/,/<\/pre>/{/<\/*pre>/d;s/&lt;/</g;s/&gt;/>/g;s/&amp;/\&/g;p;}' >"$work/seen"
}

# How many plies the moves $1 of an address are.
plies() { sed 's/[0-9]*\.//g' <<<"$1" | wc -w; }

# What `pg why` says at the end of the moves $1.
why() { "$pg" why "$certificate" "${1:--}" "${words[@]}" | tail -n 2 | head -n 1; }

# Compares the place after the moves $1, where the board is $2 and the words are $3.
compare_place() {
  local number said
  number=$(plies "$1")
  [ "$(echo "${1:--}" | "$pg" games "$2" "$((number / 2)).$((number % 2 * 5))" 2>&1 | tail -n 1)" = 'at least one game' ] ||
    fail "after '$1' the board is $2"
  said=$(why "$1")
  places=$((places + 1))
  [ "$said" != "$3" ] || return
  # (a page that stops says less)
  [ "$nodes" -lt 20000 ] && case $3 in
    *': expanded, with '*) [ "${said##*; }" = "${3##*, with }" ] && return ;;
    *': not told on this page') return ;;
  esac
  fail "after '$1' the page says '$3', and pg why '$said'"
}

# Compares the moves in $work/rows, each with its group before it and what is said of it behind, with those that are legal
# after the moves $1, where the board is $2 and the rights and the passed square are $3.
compare_rows() {
  local side=w group move said number
  [ $(($(plies "$1") % 2)) = 0 ] || side=b
  "$pg" moves "$2 $side $3 0 1" >"$work/legal"
  diff <(sort "$work/legal") <(cut -d '|' -f 2 "$work/rows" | sort) >&2 || fail "after '$1' other moves are legal (> are those of the page)"
  while IFS= read -r group; do
    awk -F '|' -v group="$group" '$1 == group { print $2 }' "$work/rows" >"$work/group"
    grep -Fxf "$work/group" "$work/legal" | cmp -s - "$work/group" || fail "after '$1' the moves of '$group' are in another order"
    number=$(wc -l <"$work/group")
    case $group in '' | "$number "*) ;; *) fail "after '$1' there are $number moves below '$group'" ;; esac
  done < <(cut -d '|' -f 1 "$work/rows" | uniq)
  while IFS='|' read -r group move said; do
    [ "$(why "$1 $move" | sed 's/^[^:]*: //')" = "$said" ] || fail "after '$1' the page says of $move '$said', and pg why '$(why "$1 $move")'"
    rows=$((rows + 1))
  done <"$work/rows"
}

# Compares what the reader saw: of the verdict it is to begin with $1, at the end with $2.
compare() {
  local kind first second third moves='' board='' rights=''
  while IFS='|' read -r kind first second third; do
    case $kind in
      PLACE) compare_place "$first" "$second" "$third" ;;
      ROWS) moves=$first board=$second rights=$third && : >"$work/rows" ;;
      ROW) echo "$first|$second|$third" >>"$work/rows" ;;
      END) compare_rows "$moves" "$board" "$rights" ;;
      ASKS) asked=$((asked + 1)) && ask "$first" ;;
      TITLES) [ "$first" = "$caption" ] && [ "$second" = "$caption" ] || fail "the page is called '$first', and its heading is '$second'" ;;
      READS) [ "${first%%.*}" = "$1" ] && [ "$second" = "$(plies_of_length)" ] || fail "the page reads '$first', with $second shorter lengths" ;;
      *) fail "the reader does not find $first $second" ;;
    esac
  done <"$work/seen"
  [ "$(tail -n 1 "$work/seen" | cut -d '|' -f 4)" = "$2" ] || fail "at the end the page says '$(tail -n 1 "$work/seen" | cut -d '|' -f 4)', not '$2'"
}

# How many plies the length of the problem is.
plies_of_length() { awk '{ print 2 * $1 }' <<<"$length"; }

# What the command $1 of a page prints last, in a folder where CERT is the certificate.
last_of() { (cd "$work" && cp "$certificate" CERT && ln -sf "$pg" pg && PATH="$work:$PATH" bash -c "$1" 2>&1 </dev/null) | tail -n 1; }

# Asks what the page says to ask.
ask() { [ "$(last_of "$1")" = 'the certificate is right' ] || fail "what the page says to ask is no answer: $1"; }

# Takes the example $1, and writes its page of $2 nodes at most.
take() {
  local lines
  mapfile -t lines <"$top/examples/$1/problem"
  name=$1 diagram=${lines[0]} length=${lines[1]} certificate=$top/examples/$1/certificate.pgc words=()
  [ ! -f "$top/examples/$1/words" ] || read -ra words <"$top/examples/$1/words"
  "$pg" page "$certificate" --nodes "$2" "${words[@]}" "${captions[@]}" >"$work/page.html" || fail "pg page ends with status $?"
  ! grep -Eiq "https?:|@import|src *=|url\((['\"]?)[^#'\"]|href *= *['\"]?[^#'\" ]" "$work/page.html" || fail "the page loads something"
}

pictures() {
  mkdir -p "$1" && folder=$(cd "$1" && pwd) || exit 1
  while IFS='|' read -r name address; do
    take "$name" 20000
    browse --window-size=1200,1700 --screenshot="$folder/$name-wide.png" "file://$work/page.html#$address" &&
      browse --window-size=390,2600 --screenshot="$folder/$name-telephone.png" "file://$work/page.html#$address" || exit 1
  done <<<$'schweig|1.Nc3%20d6\nfour-games|1.e4\nroessler|1.h4%20d5%202.h5'
}

# A page says of how many records a certificate of more than 100,000 is, with a browser and without one: as many as the search, which
# writes one for each node, says that it visited.
name='many records' diagram=2bqr1k1/2p1ppbp/1pp4p/7n/r2P3P/8/P1P1PPP1/RNB1KBNR
"$pg" search "$diagram" 9.5 "$work/many.pgc" --nodes 1131833 >/dev/null || fail "pg search ends with status $?"
"$pg" page "$work/many.pgc" --nodes 0 >"$work/page.html" || fail "pg page ends with status $?"
grep -q 'What was checked: a certificate of 1131833 records with [0-9][0-9]* named nodes' "$work/page.html" ||
  fail "the page has another number of records: $(grep -o 'What was checked: .*records' "$work/page.html")"

# A page of two thousand games has at most two million bytes, and their list is folded.
name='many games'
"$pg" search rn1q1bnr/ppp1kB1p/3p2p1/3NN3/4P3/8/PPPP1PPP/R1BbK2R 6.5 "$work/many.pgc" --nodes 5000000 --journeys >/dev/null
"$pg" page "$work/many.pgc" --out "$work/page.html" || fail "pg page ends with status $?"
[ "$(wc -c <"$work/page.html")" -le 2000000 ] || fail "the page has $(wc -c <"$work/page.html") bytes"
grep -q '<details><summary>2043 games</summary>' "$work/page.html" || fail "the list is not folded"

# A page names the command that checks its certificate, with the word that this wants: with a browser and without one, it has the
# verdict of the report.
for name in schweig bishop-on-d3; do
  take "$name" 100
  command=$(sed -n 's|.*<code>\(pg answer CERT.*\)</code>.*|\1|p' "$work/page.html")
  [ "$(last_of "$command")" = "$(tail -n 1 "$top/examples/$name/report")" ] || fail "what the page says to run has another answer: $command"
done

for browser in ${CHROMIUM-} chromium chromium-browser google-chrome ''; do ! command -v "$browser" >/dev/null || break; done
[ -n "$browser" ] || not_tried 'there is no Chromium'
echo '<p>ready</p>' >"$work/ready.html"
browse --dump-dom "file://$work/ready.html" | grep -q ready || not_tried "$browser does not start"
case ${1-} in
  '') ;;
  --pictures) pictures "${2:-pictures}"; exit "$wrong" ;;
  *) echo "bench/program/page.sh: '$1' is not understood" >&2; exit 2 ;;
esac

# Texts that would end the title, the heading or the script, if they could.
odd='</title></h1></script><script>document.title=1</script>&lt;"'
captions=(--title "$odd" --author "$odd")
caption="$odd by $odd"
take schweig 20000
asked=0
read_page '' 'titles;reads'
compare Sound "$(why '')"
captions=()

while IFS='|' read -r name nodes verdict address steps end asks; do
  asked=0
  take "$name" "$nodes"
  read_page "$address" "$steps"
  compare "$verdict" "$end"
  [ "$asked" = "$asks" ] || fail "the page says $asked times what to ask, not $asks times"
done <<'END_OF_READERS'
schweig|20000|Sound||reads;rows KQkq -;game 1;first;play;press ArrowLeft;back;line 3;rows KQkq -;move Nb5;press ArrowLeft;history;line start;move a3|after 1. a3: excluded: no man of white's can come to be the pawn on a2 (travel)|0
schweig|20000|Sound|1.Nc3 d6 2.Nd5|rows KQkq -;move Nd7;move a3;history;rows KQkq -|after 1. Nc3 d6 2. Nd5 Nd7: 1 of 27 moves leads on; cut 25 by captures, 1 by travel; 1 game below|0
schweig|100|Sound||game 1;first;play;line 5;asks|after 1. Nc3 d6 2. Nd5 Nd7: not told on this page|1
schweig|20000|Sound||game 1 3;marked c3-d5;here Nd5;flip;marked c3-d5;press ArrowLeft;marked d7-d6;here d6;flip;marked d7-d6;first;marked ;here |at the start: 4 of 20 moves lead on; cut 16 by travel; 1 game below|0
four-games|20000|Cooked||reads;game 4;first;play;game 1;first;play;back;rows KQkq d6;address 1.e4 d5;last|after 1. e4 a6 2. e5 d5 3. exd6: a solution|0
castling|20000|Sound||reads;game 1;first;play;back;next;press ArrowLeft;rows KQkq -|after 1. e4 g6 2. Ba6 Nxa6 3. Nf3 Nb8: 1 of 26 moves ends on the diagram|0
castling-long|20000|Sound||reads;game 1;first;play|after 1. d3 c6 2. Bf4 Qa5+ 3. Nd2 Qxd2+ 4. Qxd2 f6 5. O-O-O: a solution|0
bishop-on-d3|1|Sound||reads;game 1;line 5;asks|after 1. d4 Nf6 2. Qd2 Nh5: not told on this page|1
roessler|20000|Sound||reads;game 1;first;play;address 1.h4 d5 2.h5 Nd7 3.h6;rows KQkq -;move Nxh6|after 1. h4 d5 2. h5 Nd7 3. h6 Nxh6: excluded: black has captured 1 man too many|0
END_OF_READERS
[ "$places" -ge 80 ] && [ "$rows" -ge 150 ] || { echo "only $places places and $rows moves were compared" >&2; wrong=1; }
exit "$wrong"
