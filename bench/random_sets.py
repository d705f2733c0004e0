"""Random sets of template files, and data of strangers for their pages: what `bench/hostile` tries.

Texts stand where they are mostly accepted. Each kind of context has texts that lead from it to itself, so that controls and calls may be
put around any of them.
"""
import html

MARK = "q"  # begins each harmless text, and stands in no URL that a template writes

# What texts of templates say, by the kind of context: each leads from a context of the kind to one of it, as does a hole. `open` is
# behind a value at the beginning of a URL, and `note` is in a comment. In an event handler `script` is between statements, where a hole has
# a statement around it, `quoted` in a string, `pattern` in a regular expression and `aside` in a comment; in an element `script`, where
# there are no references, these are `code`, `literal`, `expression` and `remains`.
WORDS = ["a b ", "x &amp; y", "R&", "&am", "&lt", "&#106;ava", "&#x", "1 < 2 > 1 ", "javascript", "vbscript:", " data", "%3",
         "\u00e9\u2028", "\n"]
TEXTS = {
    "text": WORDS,
    "plain": WORDS,
    "note": WORDS,
    "word": ["a", "b.c", "&#32;", "&quot;", "javascript:", "%4", "/x", "\u00e9", "R&"],
    "open": ["a", "script", "java", "vbscript", "data", "-", "%41", "%c3%a9", "a&amp;b", "&", "\u00e9", "&#115;", "&Tab;", ".", "@h"],
    "path": ["a/", "/b.html", "..", ":", "javascript:", "%2F", "%3a", "\u00e9", "&", "&amp;", "@", "&#47;", "data:", "java"],
    "query": ["a", "b+c", "%26", "%3D", "/", ":", "javascript:", "&amp;c", "&", "&d", "\u00e9", "data", "&#61;"],
    "style": ["a", " red ", "1.5em", "color:", ";", ", ", "-", " #f0f ", "50% ", " !x", "&#34;x&#34; ", "/* c */ ", " { ", "} ", " (",
              ")", " b(",
              " @media ", " url(/a.png) ", "\u00e9", " \\41 ", "+", "/ ", "&lt; ", " calc(1px + "],
    "string": ["a ", "b\\41 ", "\\;", "&lt;", ";", "(", "/*", "url(", "\u00e9", "x:y", "}"],
    "remark": ["a", " ", ";", "&#39;", "url(", "* ", "(", "\u00e9"],
    "script": ["f();", " ", "a = b / 2;", "i++;", "x = /[&#39;/]/.test(y);", "s = `a${b}c`;", "if (a &lt; b) { f(); };", "/* c */",
               "// d\n", "\u00e9 = 1;", "a &amp;&amp; b();", "return /a/;", "&#102;();", "y = a &lt; /b/;", "n-- > 0;", "s = `${`}`}/`;",
               "\n", "x = [1.5, .5e3, 0x1f];", "f(&#39;&lt;!--&#39;);", "({}) / 2;"],
    "quoted": ["a ", "\\n", "&lt;", "&lt;!--", "&lt;/script>", "$", "//", "/*", "\u00e9", "\u2028", "\\u0041", "\\&#39;",
               "\\&#34;", "&amp;", ";", "`"],
    "pattern": ["a", "[/]", "\\/", "(b|c)", "\\d+", ".", "\u00e9", "&amp;", "[^a]", "&#39;", "`", "(?:d)"],
    "aside": ["a", " ", "* ", "&#39;", "/ ", "`", "&lt;/script>", "\u00e9", "&lt;!--"],
}
# Statements with holes, which are where each `@` is.
STATEMENTS = ["f(@);", "f(@);", "x = @;", "x = [@, 1];", "x = {a: @};", "if (@) { f(); };", "x = a - @;", "x = a / @ / b;", "x = @ / 2;",
              "x = typeof@;", "a&lt;@;", "x = y ? @ : @;", "x = a[@];", "x = @.length;", "f(@, &#39;@&#39;, /@/);", "return @;",
              "f(a, &#34;@&#34;);", "x = (@);", "switch (a) { case@: f(); };", "for (x in @) { f(x); };", "x = !@;", "x = @ + @;",
              "x = a+@+b;", "x = a &amp;&amp; @;", "\nf(@) // a\n;", "x = /@/.test(@);", "x = f in@;", "throw@;"]
# The same in an element `script`.
TEXTS |= {its: [html.unescape(text) for text in TEXTS[kind]] for kind, its in
          [("script", "code"), ("quoted", "literal"), ("pattern", "expression")]}
TEXTS["literal"] += ["</script>", "</SCRIPT ", "<script ", "\\<!--", "</scr", "<!-", "<!", "\\\\</script/", "<b>", "</"]
TEXTS["expression"] += ["<script", "<!--", "(<\\/script>)", "[</]script>"]
TEXTS["remains"] = ["a", " ", "* ", "'", "/ ", "`", "</scripts>", "\u00e9", "<!--", "<script>"]
ELEMENT_STATEMENTS = [html.unescape(text) for text in STATEMENTS]
# Kinds of templates that others call.
KINDS = ["text", "text", "plain", "plain", "note", "attributes", "open", "path", "query", "style", "string", "script", "script", "quoted",
         "pattern", "code", "code", "literal", "expression"]

ELEMENTS = ["p", "a", "b", "td", "LI", "form", "object", "x-y", "svg", "img", "blockquote", "h1"]
PLAIN_NAMES = ["title", "class", "alt", "Value", "data-x", "content", "type", "hidden", "aria-label"]
URL_NAMES = ["href", "src", "action", "formaction", "cite", "poster", "data", "background", "manifest", "icon", "longdesc", "usemap",
             "profile", "classid", "codebase", "archive"]
SCRIPT_NAMES = ["onclick", "onload", "ONINPUT", "data-onx", "x:onfocus"]
MORE_URL_NAMES = ["HREF", "data-href", "xlink:href", "xmlns:x", "my-url", "imgsrc", "x-uri"]

# Whole URLs without a hole, texts that lead past any scheme, and texts in which one may still end.
WHOLE_URLS = ["javascript:f()", "data:,x", "/a?b&#61;c#d", "JaVa&#115;cript&colon;x", "feed:x", "java{{if $.t}}{{end}}script:x",
              "http://h/%4", "#"]
PAST_SCHEMES = ["/", "./", "//h.example/", "http://h.example/", "HTTPS:", "mailto:", "feed:", "tel:", "x/", "\u00e9:", "&#104;ttp&#58;//h/"]
LETTERS = ["java", "javascript", "vbscript", "d", "data", "x", "&#106;ava", "jav&#9;a", "&Tab;java", "JaVa", "http", "h", "1", "-"]

# What may be refused, by the kind of context. In a template `$` is what it is called with, and so always has all the keys.
MAY_BE_REFUSED = {
    "text": ['<p {{if $.t}}class="x{{end}}>', "<script>{{$.a}}{{$.b}}/c/</script>",
             "<script>f('{{$.a}}</script>", "<script>x = 1;{{if $.t}}</script>{{end}}",
             '<p onclick="f(`{{$.a}}`)">', '<p style="x:{{$.a}}(">',
             "<h{{$.n}}>",
             "<!--{{$.a}}-->", '<a href="javascript:{{$.a}}">', '<a href="{{$.a}}:x">', "<a href=x{{$.a}}&#58;y>", '<a href="/%4{{$.a}}">',
             '<a href="/a{{if $.t}}?{{end}}{{$.b}}">', '{{template "none" .}}', '<iframe srcdoc="{{$.a}}"></iframe>', "<b x={{$.a}}=1>",
             "<p title={{if $.t}}{{$.a}}{{end}} class=x>", "<p {{$.a}}x=1>", "a <{{$.a}}", '<a href="java{{if $.t}}script{{end}}:{{$.a}}">',
             '<a href="{{if $.t}}java{{else}}x{{end}}script:{{$.a}}">', "<p title={{html $.a}}>", '<script type="{{$.a}}">x</script>',
             '<a href="da{{if $.t}}t{{end}}a:,{{$.a}}">', '<a href="{{range $.l}}{{.}}{{end}}">', "<!DOCTYPE {{$.a}}>", "</b {{$.a}}>",
             "<style>p{a:{{$.a}}(b)}</style>", "<style>p{a:b}</{{$.a}}>", "<style>p{a:'<{{$.a}}'}</style>",
             "<style>p{a:b}</sty{{if $.t}}{{end}}le>",
             "<style>p{a:b}{{if $.t}}</style>{{end}}", "<style>p{a:b\\{{$.a}}}</style>", "<style>/* *{{$.a}}/</style>"],
    "plain": ["{{$.a | html | print}}", "<", "</", '"'],
    "note": ["-", "--", "-->", "{{html $.a}}"],
    "word": ["=", "`", "{{if $.t}} {{end}}"],
    "attributes": ["hidden", "=", '"', "data-{{$.a}}=x ", "href {{if $.t}}=x{{end}} ", "{{$.a}}", 'srcset="{{$.a}}" '],
    "open": [":", "&#58;", "&colon;", "%", "%4", "/", "{{if $.t}}?{{end}}", "&copy;"],
    "path": ["%", "%4", "{{if $.t}}?{{end}}", "&copy;", "{{urlquery $.a}}"],
    "query": ["%", "%4", "&copy;", "{{html $.a}}"],
    "style": ["(", "*", "/", "<", "\\", "\\4", "&#39;", "{{html $.a}}", "&copy;", "rl(", "{{if $.t}}&#39;{{end}}", " url({{$.a}} {{$.b}})",
              " url({{$.a}}:x)", " url({{if $.t}}/{{end}}{{$.a}})"],
    "string": ["&#10;", "\\", "\\26", "&#34;", "&copy;", "{{html $.a}}"],
    "remark": ["*", "/", "*/", "{{html $.a}}"],
    "script": ["f(`{{$.a}}`);", "f(&#39;\\{{$.a}}&#39;);", "x = /[{{$.a}}]/;", "x = {} / {{$.a}};", "f({{html $.a}});", "a&lt;/{{$.a}}/;",
               "x = {{if $.t}}{{$.a}}{{end}}/b/.c;", "/* *{{$.a}}/ */", "{{$.a}}&lt;!--b;",
               "f({{if $.t}}&#39;{{$.a}}{{else}}a{{end}}&#39;);",
               "{} / 2;", "x = {{if $.t}}a{{end}}/b/.c;", "f{{if $.t}}oo{{end}}();",
               "f(`{{if $.t}}a{{end}}`);", "n-->0;", "a &lt;!--b;", "x = /[{{if $.t}}a{{end}}b]/;", "a&copy;;",
               "a &lt;/{{if $.t}}b{{end}}/;", "{{if $.t}}&#39;{{end}}"],
    "quoted": ["\\{{$.a}}", "\\x4{{$.a}}", "{{html $.a}}", "&#10;", "\\{{if $.t}}n{{end}}", "\\u00{{if $.t}}41{{end}}", "&copy;"],
    "aside": ["*", "*/", "{{html $.a}}"],
    "pattern": ["\\{{$.a}}", "[{{$.a}}]", "{{urlquery $.a}}", "&#10;", "\\{{if $.t}}d{{end}}", "[a{{if $.t}}b{{end}}]", "&copy;"],
}
MAY_BE_REFUSED |= {its: [html.unescape(text) for text in MAY_BE_REFUSED[kind]] for kind, its in
                   [("script", "code"), ("quoted", "literal"), ("pattern", "expression"), ("aside", "remains")]}
MAY_BE_REFUSED["code"] += ["</scr{{if $.t}}{{end}}ipt>", "x = a<{{$.a}};", "x <{{if $.t}}a{{end}}/b/;", "<!{{if $.t}}{{end}}-- a",
                           "{{if $.t}}</script>{{end}}",
                           "f('\n');", "/* {{$.a}} </script {{$.b}}>"]

# Texts of the element `style` that are nearly its end tag, a comment of HTML, or a reference.
ELEMENT_STYLES = [" </b> ", " '</styl' ", ' "</stylex>" ', " <!-- a --> ", " /* </styl> */ ", " a < b ", " /* < */ ", " url('</sty') ",
                  " &#34; ",
                  " .a > b { ", "} ", " /* a */.b ", "</styl e>", " '&lt;/style>' ", " \\</styl ", " a/* * */b"]

# Texts of the element `script` with comments of more than one line, and with what is nearly its end tag or a comment of HTML.
ELEMENT_SCRIPTS = [" </b/.test(a);", " '</scrip' ;", ' f("</scriptx>");', " f('<!-- a -->');", " /* </scrip> */ ", " a < b;",
                   " x = `</script>`;", " /* < */ ", "\n/* a\nb */ c\n", " // d\u2028f();", " // <!--\n", " x = a/* * */b;",
                   " f('\\</script>');", " x = /<script/.test(y);", " x = `<${ '</script>' }`;", " 'a' /* */ + 'b';", " x = y</* a */b/2;",
                   "\r\n// </script1>\r\n", " f(a /**/ / 2);", " &#34; "]

# Texts of styles in which CSS reads otherwise than the program, as `docs/STYLES.md` says.
STYLE_LIMITS = [" #url(", " @url(", " \\url(", " u\\rl(", " \\75 rl(", " ur\\6c (", " <!--url("]


class SetMaker:
    """Makes one set of template files. Most of what it writes is accepted; each set has its own odds of what may be refused."""

    def __init__(self, source):
        self.source = source
        self.odds = source.choice([0, 0, 0, 0.01, 0.05])
        self.templates = []
        self.current = -1  # the number of the template that is being written: it calls later ones, and others only with less data

    def files(self):
        """The contents of each file by its name."""
        count = self.source.randint(1, 6)
        pages = self.source.randint(1, min(count, 3))
        names = [f"page{n}.html" if n < pages else f"_part{n}.html" for n in range(count)]
        self.templates = [(name, "text") for name in names[pages:]]
        self.templates += [(f"t{n}", self.source.choice(KINDS)) for n in range(self.source.randint(0, 3 * count))]
        self.source.shuffle(self.templates)
        parts = {name: [self.page()] if n < pages else [] for n, name in enumerate(names)}
        for self.current, (name, kind) in enumerate(self.templates):
            body = self.hole("open", True) * (kind == "open") + self.pieces(kind, 2, True)
            where = name
            if name not in parts:
                is_block = kind == "text" and self.source.random() < 0.2  # which a page calls where it is
                where = self.source.choice(names[:pages] if is_block else names)
                body = f'{{{{block "{name}" .}}}}{body}{{{{end}}}}' if is_block else f'{{{{define "{name}"}}}}{body}{{{{end}}}}'
            parts[where].insert(self.source.randint(0, len(parts[where])), body)
        return {name: "".join(written) for name, written in parts.items()}

    def page(self):
        doctype = self.source.choice(["", "<!DOCTYPE html>", "{{if .t}}<!doctype html>\n{{end}}"])
        return doctype + self.pieces("text", 3, True) + self.element(2, True)

    def pieces(self, kind, depth, is_record):
        return "".join(self.piece(kind, depth, is_record) for _ in range(self.source.randint(1, 4)))

    def piece(self, kind, depth, is_record):
        """Something that leads from any context of the kind to one of it; `is_record` says whether dot has keys."""
        if self.source.random() < self.odds:
            return self.source.choice(MAY_BE_REFUSED[kind])
        choice = self.source.random()
        if depth and choice < 0.2:
            return self.control(kind, depth - 1, is_record)
        if choice < 0.35:
            return self.call(kind, is_record)
        if kind == "attributes":
            return self.attribute(depth, is_record)
        if kind == "text" and depth and choice < 0.75:
            return self.element(depth - 1, is_record)
        return self.hole(kind, is_record) if choice < 0.85 else self.source.choice(TEXTS[kind])

    def control(self, kind, depth, is_record):
        top = "." if is_record else "$."
        inside = lambda has_keys: self.pieces(kind, depth, has_keys)
        otherwise = "{{else}}" + inside(is_record) if self.source.random() < 0.5 else ""
        leave = self.source.choice(["", "", "{{if $.t}}{{break}}{{end}}", "{{if $.f}}{{break}}{{else}}{{continue}}{{end}}"])
        return self.source.choice([
            lambda: f"{{{{if {self.condition(top)}}}}}{inside(is_record)}{otherwise}{{{{end}}}}",
            lambda: f"{{{{if {self.condition(top)}}}}}{inside(is_record)}{{{{else if {top}t}}}}{inside(is_record)}{otherwise}{{{{end}}}}",
            lambda: f"{{{{with {top}{self.source.choice('abenv')}}}}}{inside(False)}{otherwise}{{{{end}}}}",
            lambda: f"{{{{with {top}next}}}}{inside(True)}{otherwise}{{{{end}}}}",
            lambda: f"{{{{range {top}l}}}}{inside(False)}{leave}{inside(False)}{otherwise}{{{{end}}}}",
            lambda: f"{{{{range {top}m}}}}{inside(True)}{leave}{inside(True)}{otherwise}{{{{end}}}}",
            lambda: f"{{{{$x := {top}a}}}}{{{{if {top}t}}}}{{{{$x = {top}b}}}}{{{{end}}}}{self.written('$x', kind)}",
        ])()

    def condition(self, top):
        fields = [top + name for name in "abenztfuvlmd"] + [top + "next"]
        one, other = self.source.sample(fields, 2)
        return self.source.choice([one, one, f"not {one}", f"and {one} {other}", f"or {one} {other}", f"gt (len {top}l) 1"])

    def call(self, kind, is_record):
        """A call of a template of the kind, or a hole where there is none. One that may lead back here is given less data."""
        fits = [n for n, (_, its) in enumerate(self.templates) if its == kind or its == "plain" and kind == "text"]
        if not fits:
            return self.piece(kind, 0, is_record) if kind == "attributes" else self.hole(kind, is_record)
        number = self.source.choice(fits)
        name = self.templates[number][0]
        if number > self.current:
            return f'{{{{template "{name}" {"." if is_record else "$"}}}}}'
        return f'{{{{with {"." if is_record else "$."}next}}}}{{{{template "{name}" .}}}}{{{{end}}}}'

    def hole(self, kind, is_record):
        top = "." if is_record else "$."
        if not is_record and self.source.random() < 0.5:
            return self.written(".", kind)
        field = top + self.source.choice("aaaabbbbccccenztfuvld")
        if self.source.random() < 0.55:
            return self.written(field, kind)
        text = top + self.source.choice("abc")
        return self.written(self.source.choice([
            f"print {field} {text}", f'print {text} ":"', f'printf "%s" {text}', f'printf "%v|%5d" {field} {top}n', f"len {text}",
            f"index {top}l 0", f"print (index {top}l 0) {field}", f"slice {text} 0 1", f"len {top}l | print {text}", '"javascript:"',
            f"or {field} {text}"]), kind)

    def written(self, value, kind):
        escaper = {"text": "html", "plain": "html", "query": "urlquery"}.get(kind)
        named = f" | {escaper}" if escaper and self.source.random() < 0.05 else ""
        hole = f"{{{{{value}{named}}}}}" + (" " if kind == "attributes" else "")
        statements = {"script": STATEMENTS, "code": ELEMENT_STATEMENTS}.get(kind, ["@"])
        return self.source.choice(statements).replace("@", hole)

    def element(self, depth, is_record):
        plain = lambda kind="plain": self.pieces(kind, depth, is_record)
        name = self.source.choice(ELEMENTS)
        tag = lambda: f"<{name} {self.pieces('attributes', depth, is_record)}>"
        return self.source.choice([
            tag, lambda: f"{tag()}{plain('text')}</{name}>", lambda: f"{tag()}{plain()}</{name}>",
            lambda: f"<{name} {self.attribute(depth, is_record)}/>", lambda: f"<p>{plain()}</p >",
            lambda: f"<title>{plain()}</title>", lambda: f"<title><b>{plain()}</b></title>",
            lambda: f"<textarea {self.attribute(depth, is_record)}>{plain()}</p></textarea>",
            lambda: f"<!-- {plain('note')} -->", lambda: f'<script type="text/template"><p>{plain()}</p></script>',
            lambda: f"<style>{self.style_content(depth, is_record)}</style>",
            lambda: f"<style>{self.style_content(depth, is_record)}</STYLE >",
            lambda: f"<STYLE {self.attribute(depth, is_record)}>{self.style_content(depth, is_record)}</style\n>",
            lambda: f"<script>{self.script_content(depth, is_record)}</script>",
            lambda: f'<script type="module">{self.script_content(depth, is_record)}</SCRIPT >',
            lambda: f"<SCRIPT {self.attribute(depth, is_record)}>{self.script_content(depth, is_record)}</script\n>",
        ])()

    def attribute(self, depth, is_record):
        plain_name, url_name = self.source.choice(PLAIN_NAMES), self.source.choice(URL_NAMES * 2 + MORE_URL_NAMES)
        quote = self.source.choice(['"', '"', "'", ""])
        value = lambda: self.pieces("plain", depth, is_record) if quote else self.begun(depth, is_record)
        url = lambda: f"{url_name}={quote}{self.url(quote, depth, is_record)}{quote} "
        return self.source.choice([
            url, url, url, url, lambda: f"{plain_name}={quote}{value()}{quote} ", lambda: f"{plain_name} ",
            lambda: f"style={quote}{self.style(quote, depth, is_record)}{quote} ", lambda: f'style="{self.style(1, depth, is_record)}" ',
            lambda: f"{self.source.choice(SCRIPT_NAMES)}={quote}{self.script(quote, depth, is_record)}{quote} ",
            lambda: self.hole("attributes", is_record), lambda: f"{self.hole('attributes', is_record)}={quote}{value()}{quote} ",
            lambda: "{{range $k, $w := $.d}}{{$k}}=" + f"{quote}{{{{$w}}}}{quote} {{{{end}}}}",
        ])()

    def script(self, quote, depth, is_record):
        """An event handler."""
        more = lambda kind: self.pieces(kind, depth, is_record)
        condition = self.condition("." if is_record else "$.")
        if not quote:
            hole = self.hole("word", is_record)
            return self.source.choice([
                f"f({{{{if {condition}}}}}{self.source.choice(['1', 'a.b', '/&#61;/', hole])}{{{{end}}}})", hole, f"f({hole})",
                f"f(&#39;{hole}&#39;)", f"x&#61;/{hole}/", f"/*{hole}*/f({hole})", f"f(a,&#34;{hole}&#34;,{hole})", f"f({hole})//{hole}"])
        mark = self.source.choice(["&#39;", "&#34;", "&quot;"])
        parts = [
            lambda: more("script"), lambda: f"f({mark}{more('quoted')}{mark});", lambda: f" x = /a{more('pattern')}/.test(y);",
            lambda: " /* // ' */", lambda: f"g({{{{if {condition}}}}}1{{{{else}}}}a{{{{end}}}}, 2);",
            lambda: f" /* {more('aside')} */", lambda: f" // {more('aside')}\n", lambda: self.hole("script", is_record),
            lambda: f" x = [{{{{range $.l}}}}{{{{.}}}}, {{{{end}}}}1]; ", lambda: f"f({mark}{self.hole('quoted', is_record)}{mark});",
            lambda: f" x = /{self.hole('pattern', is_record)}/.test(y);",
        ]
        return "".join(self.source.choice(parts)() for _ in range(self.source.randint(1, 3))).replace("'", "&#39;")

    def style(self, quote, depth, is_record):
        more = lambda kind: self.pieces(kind, depth, is_record)
        if not quote:
            url, note = f"url({self.hole('open', is_record)})", "/*" + self.hole("remark", is_record)
            return "a:" + self.source.choice([self.hole("style", is_record), url, note, self.hole("style", is_record) + ";" + url])
        mark = self.source.choice(["&#39;", "&#34;", "&quot;"])
        parts = [
            lambda: more("style") + " ", lambda: f"{self.source.choice(['color', 'a-b', '--x'])}:{more('style')};",
            lambda: f" a:{mark}{more('string')}{mark};", lambda: f" /* {more('remark')} */",
            lambda: f" url({mark}{self.hole('open', is_record)}{more('open')}{mark})",
            lambda: f" url(/{more('path')})", lambda: f" url( {mark}/a?b={more('query')}{mark} )",
            lambda: f" url({self.hole('open', is_record)})",
            lambda: self.hole("style", is_record) + self.hole("style", is_record) + "px ",
        ]
        limit = [lambda: self.source.choice(STYLE_LIMITS) + self.hole("style", is_record) + ") "] * (self.source.random() < 0.05)
        return "".join(self.source.choice(parts + limit)() for _ in range(self.source.randint(1, 3)))

    def style_content(self, depth, is_record):
        """The content of an element `style`: styles as in an attribute, without their references, and texts of its own between them."""
        parts = []
        for _ in range(self.source.randint(1, 3)):
            parts.append(html.unescape(self.style('"', depth, is_record).replace("&lt;", "&lt; ")))
            parts.append(self.source.choice(ELEMENT_STYLES + [" "] * 8))
        return "".join(parts)

    def script_content(self, depth, is_record):
        """The content of an element `script`."""
        more = lambda kind: self.pieces(kind, depth, is_record)
        mark = self.source.choice("'\"")
        condition = self.condition("." if is_record else "$.")
        parts = [
            lambda: more("code"), lambda: more("code"), lambda: f"f({mark}{more('literal')}{mark});",
            lambda: f" x = /a{more('expression')}/.test(y);", lambda: f" /* {more('remains')} */", lambda: f" // {more('remains')}\n",
            lambda: self.hole("code", is_record),
            lambda: f"g({{{{if {condition}}}}}1{{{{else}}}}a{{{{end}}}}, 2);", lambda: f" x = [{{{{range $.l}}}}{{{{.}}}}, {{{{end}}}}1]; ",
            lambda: f"f({mark}<{self.hole('literal', is_record)}/script>{mark});",
            lambda: f"f({mark}</scr{self.hole('literal', is_record)}ipt>{mark});",
        ] + [lambda: self.source.choice(ELEMENT_SCRIPTS)] * 4
        return "".join(self.source.choice(parts)() for _ in range(self.source.randint(1, 4)))

    def begun(self, depth, is_record):
        """A value without quotes, which begins in its first piece."""
        return self.source.choice(["a", self.hole("word", is_record)]) + self.pieces("word", depth, is_record)

    def url(self, quote, depth, is_record):
        more = lambda kind: self.pieces(kind, depth, is_record)
        one, other = self.source.choice(LETTERS), self.source.choice(LETTERS)
        either = f"{{{{if $.{self.source.choice('tfn')}}}}}{one}{{{{else}}}}{other}{{{{end}}}}"
        begun = self.source.choice(["", "", one, one + other, either, one + either, " " * bool(quote)]) + self.hole("open", is_record)
        equals = "=" if quote else "&#61;"
        query = f"?k{equals}{more('query')}" + (f"&amp;l{equals}{more('query')}" if self.source.random() < 0.4 else "")
        past = self.source.choice(PAST_SCHEMES)
        return self.source.choice([
            lambda: self.source.choice(WHOLE_URLS), lambda: begun, lambda: begun, lambda: begun + more("open"),
            lambda: f"{begun}{more('open')}/{more('path')}", lambda: begun + query, lambda: past + more("path"),
            lambda: past + more("path") + query, lambda: past + query, lambda: query, lambda: "#" + more("query"),
        ])()


# Data of strangers: what acts on URLs, and what acts on everything else.
HOSTILE_URLS = [
    "javascript:alert(1)", " JaVaScRiPt:alert(1)", "java\tscript:alert(1)", "\x01javascript:x", "data:text/html,<script>", "vbscript:x",
    ":x", "x:y", "script:x", "cript:alert(1)", "s", "http", "http:", "HTTPS://h/?a=1&b=2#c", "mailto:x", "//h/", "&#106;avascript:x", "/",
    "?x", "#", "javascript&colon;x", "%3a", "%", "%4", "4", "41", "3ax", "a&b=c#d", "&", "=", "[", "//[", "\\", "\0javascript:x",
]
HOSTILE_TEXTS = [
    '"><script>x</script>', "'><b>", "' onmouseover=x ", "\" onclick='x", "x onclick=x", "--><b>", "--!><b>", "-", ">", "<", "<!--", "<b",
    "</title><script>", "</textarea><b>", "</script><b>", "/script ", "!--", "&lt;b&gt;", "amp;", "lt;", "#60;", ";", "`", "/>", "\0",
    "a\0b", "\u2028", "\u00a0hidden", "\u0085x", "\x1cx=y", "\x0bx", "\x0c", "\r\n", " ", "\ufeffx", "\U0001f600", "\x1bx", "onclick",
    "HREF", "style", "src", "srcdoc", "title", "ONLOAD", "{{.a}}", "ZgotmplZ", "<" * 3000, 'x"' * 3000,
]


HOSTILE_STYLES = [
    "red;x:y", "}", "{", "*/", "/*", "\\", "\\22 ", "\\3b", "\\41 b", "expression(1)", "expres", "sion", "url(javascript:x)", "--", "-",
    "(", ")",
    "';x", '";x', "@import", "\n", " ", "1", "e3", "#", "!important", "<!--", "-->", "rl(", "u", "url", "\\75", "[", "/", "*", "<", "\0",
    "\u00e9", ":", ",", "%", "a ", " b", "</style>", "</style><script>x</script>", "/style>", "</sty", "le>", "}b{", "&#125", "&lt",
    "*/</style>",
]


HOSTILE_SCRIPTS = [
    "'", '"', "`", "\\", "\\'", '\\"', "');alert(1)//", '");alert(1)//', "${alert(1)}", "*/", "/*", "//", "/", "/g", "]", "[", "(", ")",
    "(?:", "|", "^", "$", "\n", "\r", "\u2028", "\u2029", "a\nalert(1)", "</script>", "<!--", "-->", "--", "++", "+", "-", ".", "{", "}",
    ";", ",", "=", "=>", "x41", "u0041", "\\u0027", "\\x27", "\\u{27}", "&#39;", "&quot;", "&apos;", "&#34", "&Tab;", "0", "1e3", "null",
    "true", "NaN", "__proto__", "constructor", "use strict", "\0", "\b", "\f", "\x0b", "\x7f", "\ufeff", "\u00a0", "\U0001f600", "#",
    "#!", "@", "a b", "*", "?", "{2}", "\\d", "\\b", "cA",
]


class DataMaker:
    """Makes data of one random shape. A shape is data whose texts, numbers and entries are still to be filled."""

    TEXT, NUMBER, ENTRIES = object(), object(), object()

    def __init__(self, source):
        self.source = source
        self.shape = self.record(source.randint(0, 2))

    def record(self, depth):
        some = [self.TEXT] * self.source.randint(1, 3)
        mixed = [self.NUMBER, None, some]
        any_value = self.source.choice([self.TEXT, self.NUMBER, self.ENTRIES, True, False, None, 0, "", [], some, mixed])
        fixed = {"a": self.TEXT, "b": self.TEXT, "c": self.TEXT, "e": "", "n": self.NUMBER, "z": 0, "t": True, "f": False, "u": None}
        records = [self.record(depth - 1) for _ in range(self.source.randint(1, 2))] if depth else []
        return {**fixed, "v": any_value, "l": some, "m": records, "d": self.ENTRIES, "next": self.record(depth - 1) if depth else None}

    def fill(self, shape, is_hostile):
        if shape is self.TEXT:
            return self.text(is_hostile)
        if shape is self.NUMBER:
            return self.source.choice([-1, -(2 ** 63), 2 ** 63 - 1, 41]) if is_hostile else self.source.randint(1, 9)
        if shape is self.ENTRIES:
            entries = {}
            while len(entries) < 2:
                entries[self.text(is_hostile)] = self.text(is_hostile)
            return entries
        if isinstance(shape, list):
            return [self.fill(item, is_hostile) for item in shape]
        if isinstance(shape, dict):
            return {key: self.fill(item, is_hostile) for key, item in shape.items()}
        return shape

    def text(self, is_hostile):
        if not is_hostile:
            return MARK + "".join(self.source.choices("abcdefgh", k=self.source.randint(1, 6)))
        lists = [HOSTILE_URLS, HOSTILE_TEXTS, HOSTILE_STYLES, HOSTILE_SCRIPTS]
        return "".join(self.source.choices(self.source.choice(lists), k=self.source.choice([1, 1, 1, 2, 3])))
