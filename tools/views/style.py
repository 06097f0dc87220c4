"""The page's style: light and dark by the reader's choice, two columns where there is room."""

STYLE = '''
:root { color-scheme: light dark; --ink: #1d2126; --dim: #69707a; --paper: #ffffff; --panel: #f5f6f8; --rule: #d9dde2;
  --gone: #fde5e2; --gone-ink: #9a2218; --came: #def3e0; --came-ink: #17692a; --ren: #fdf2cd; --ren-ink: #7a5500; --link: #1f5fae; }
@media (prefers-color-scheme: dark) { :root { --ink: #dfe3e8; --dim: #98a1ac; --paper: #15181c; --panel: #1d2127; --rule: #363c45;
  --gone: #44211f; --gone-ink: #ff9d92; --came: #1b3a24; --came-ink: #83d998; --ren: #3e3415; --ren-ink: #f0c95f; --link: #83b7f5; } }
* { box-sizing: border-box; }
body { font: 15px/1.45 system-ui, sans-serif; color: var(--ink); background: var(--paper); margin: 0 auto; padding: 1rem 1.25rem 3rem; max-width: 110rem; }
h1 { font-size: 1.35rem; margin: 0 0 .2rem; overflow-wrap: anywhere; }
h2 { font-size: 1.1rem; margin: 2rem 0 .5rem; padding-top: .6rem; border-top: 1px solid var(--rule); }
p { margin: .25rem 0; }
a { color: var(--link); }
nav a { display: inline-block; margin-right: .9rem; }
code, .line, .regs { font: 13px/1.5 ui-monospace, "DejaVu Sans Mono", monospace; }
.regs { overflow-wrap: anywhere; color: var(--dim); }
.key span { padding: .05rem .45rem; border-radius: 3px; margin-right: .15rem; white-space: nowrap; }
.two { display: grid; grid-template-columns: minmax(0, 1fr) minmax(0, 1fr); gap: .7rem 1rem; align-items: start; }
.one { display: grid; gap: .7rem; max-width: 60rem; }
.one h4 i { display: none; }
.block { background: var(--panel); border: 1px solid var(--rule); border-radius: 6px; padding: .25rem 0 .35rem; }
.block h4 { font-size: .85rem; margin: 0; padding: .1rem .6rem .25rem; }
.block h4 i { font-style: normal; font-weight: normal; color: var(--dim); }
.line { scroll-margin: 6rem; display: flex; gap: .6rem; padding: 0 .6rem; color: inherit; text-decoration: none; border-left: 3px solid transparent; }
.line .n { flex: none; width: 2.2rem; text-align: right; color: var(--dim); }
.line .m { flex: none; width: .6rem; text-align: center; }
.line .c { flex: 1 1 auto; min-width: 0; overflow-wrap: anywhere; padding-left: 1.4em; text-indent: -1.4em; }
.line .o { flex: none; color: var(--dim); font-size: 12px; }
.line b { font-weight: 600; border-bottom: 1px dotted currentColor; }
.gone { background: var(--gone); border-left-color: var(--gone-ink); }
.came { background: var(--came); border-left-color: var(--came-ink); }
.ren { background: var(--ren); border-left-color: var(--ren-ink); }
.gone .m { color: var(--gone-ink); } .came .m { color: var(--came-ink); } .ren .m { color: var(--ren-ink); }
a.line:hover { text-decoration: underline; }
.line:target, .block:target { outline: 2px solid var(--link); outline-offset: -1px; }
.why { border-collapse: collapse; } .why td { padding: .1rem .8rem .1rem 0; vertical-align: top; } .why td:first-child { white-space: nowrap; color: var(--dim); }
.scroll { overflow-x: auto; }
pre { background: var(--panel); border: 1px solid var(--rule); border-radius: 6px; padding: .6rem; overflow-x: auto; font: 13px/1.5 ui-monospace, "DejaVu Sans Mono", monospace; }
svg.graph { display: block; max-width: 100%; height: auto; } svg text { font: 12px system-ui, sans-serif; fill: var(--ink); } svg .name, svg .size, svg .label { text-anchor: middle; }
svg .box { fill: var(--panel); stroke: var(--dim); } svg .box.came { fill: var(--came); stroke: var(--came-ink); } svg .box.gone { fill: var(--gone); stroke: var(--gone-ink); }
svg .name { font-weight: 600; } svg .size, svg .label { fill: var(--dim); }
svg .edge { fill: none; stroke: var(--dim); stroke-width: 1.2; } svg .head { fill: var(--dim); }
svg .move { fill: none; stroke: var(--came-ink); stroke-width: 2; stroke-dasharray: 5 3; } svg .movehead { fill: var(--came-ink); } svg .moved { fill: var(--came-ink); font-weight: 600; }
@media (max-width: 820px) { .two { grid-template-columns: minmax(0, 1fr); gap: .4rem; } .two > :nth-child(even) { margin-bottom: .7rem; } body { padding: .75rem .7rem 2rem; } }
@media print { .block, .line { break-inside: avoid; } }
'''
