// Colours of a text by a TextMate grammar, as far as the two grammars of share/vscode go: patterns with `match` or with `begin` and `end`, which lie in one
// line, and captures with a name or with patterns.

class Colours {
  constructor(grammar) {
    this.grammar = grammar;
    this.kept = new Map();
  }

  // The text as HTML, line by line. What a scope is called decides its class: `keyword.control.etsprogram` has `keyword`.
  html(text) {
    let patterns = this.grammar.patterns;
    return text.split('\n').map((line) => {
      const opens = patterns.find((it) => it.begin && new RegExp(it.begin).test(line));
      if (opens) {
        patterns = opens.patterns;
        return Colours.piece(line, opens.beginCaptures['0'].name);
      }
      return this.line(line, patterns);
    }).join('\n');
  }

  // A line, which is kept for the next time.
  line(line, patterns) {
    const isWhole = patterns === this.grammar.patterns;
    let it = isWhole ? this.kept.get(line) : undefined;
    if (it === undefined) {
      it = this.coloured(line, patterns);
      if (this.kept.size > 5000) this.kept.clear();
      if (isWhole) this.kept.set(line, it);
    }
    return it;
  }

  coloured(line, patterns) {
    const rules = patterns.map((it) => it.include ? this.grammar.repository[it.include.slice(1)] : it).filter((it) => it.match);
    let at = 0, html = '';
    while (at < line.length) {
      const found = this.first(line, at, rules);
      if (!found) break;
      const [rule, match] = found;
      html += Colours.piece(line.slice(at, match.index)) + (rule.captures ? this.captured(match, rule.captures) : Colours.piece(match[0], rule.name));
      at = match.index + match[0].length;
    }
    return html + Colours.piece(line.slice(at));
  }

  // The rule that matches first, and of two at one place the one that is named first.
  first(line, at, rules) {
    let best = null;
    for (const rule of rules) {
      rule.pattern ??= new RegExp(rule.match, 'g');
      rule.pattern.lastIndex = at;
      const match = rule.pattern.exec(line);
      if (match && match[0] && (!best || match.index < best[1].index)) best = [rule, match];
    }
    return best;
  }

  // A match with its captures, which follow one another.
  captured(match, captures) {
    let html = '', rest = match[0];
    for (const [number, capture] of Object.entries(captures)) {
      const text = match[number] ?? '', at = rest.indexOf(text);
      if (at < 0) continue;
      html += Colours.piece(rest.slice(0, at)) + (capture.patterns ? this.coloured(text, capture.patterns) : Colours.piece(text, capture.name));
      rest = rest.slice(at + text.length);
    }
    return html + Colours.piece(rest);
  }

  static piece(text, scope) {
    const safe = text.replace(/&/g, '&amp;').replace(/</g, '&lt;');
    const [kind, part] = (scope ?? '').split('.');
    return scope && text ? `<i class="${kind}-${part} ${kind}">${safe}</i>` : safe;
  }
}
