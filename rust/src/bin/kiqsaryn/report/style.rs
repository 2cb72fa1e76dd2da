//! How the page looks: on a light screen, on a dark one, on a narrow one, and on paper.

pub const STYLE: &str = "\
:root{--paper:#fff;--ink:#16181d;--soft:#5a606b;--line:#d3d7de;--band:#f4f6f9;--race:#b00020;--free:#0b6b2e;--link:#0a4fb3;\
--written:#fde3ae;--hatch:#b00020}
@media screen and (prefers-color-scheme:dark){:root{--paper:#15171b;--ink:#e8e8e8;--soft:#a7adb8;--line:#3b4048;--band:#1e2127;\
--race:#ff8a93;--free:#7fd89b;--link:#8ab4ff;--written:#5a4310;--hatch:#ff5c6c}}
*{box-sizing:border-box}
html{background:var(--paper);color:var(--ink);font:16px/1.5 system-ui,-apple-system,'Segoe UI',Roboto,'Liberation Sans','DejaVu Sans',sans-serif}
body{margin:0}
main{max-width:1000px;margin:0 auto;padding:28px 24px 64px;overflow-wrap:anywhere}
h1{font-size:1.75rem;line-height:1.25;margin:0 0 .5rem}
h2{font-size:1.35rem;margin:2.4rem 0 .6rem;padding-bottom:.25rem;border-bottom:2px solid var(--line)}
h3{font-size:1.12rem;margin:1.6rem 0 .5rem}
h4{font-size:1rem;margin:1.4rem 0 .4rem}
h5{font-size:.95rem;margin:0 0 .3rem}
p{margin:.5rem 0}
a{color:var(--link)}
.summary{font-size:1.15rem;font-weight:600;padding:.6rem .9rem;background:var(--band);border-left:4px solid var(--ink)}
nav ul{list-style:none;display:flex;flex-wrap:wrap;gap:.2rem 1.2rem;margin:.8rem 0 0;padding:0}
code,pre,.hash{font-family:ui-monospace,'Liberation Mono','DejaVu Sans Mono',Menlo,Consolas,monospace;font-size:.9em}
code{overflow-wrap:anywhere}
pre{background:var(--band);padding:.6rem .9rem;white-space:pre-wrap;overflow-wrap:anywhere}
.scroll{overflow-x:auto}
table{border-collapse:collapse;margin:.5rem 0;font-size:.95rem;overflow-wrap:normal}
.name{overflow-wrap:anywhere}
th,td{text-align:left;vertical-align:top;padding:.28rem .8rem .28rem .5rem;border-bottom:1px solid var(--line);font-variant-numeric:tabular-nums}
thead th{border-bottom:2px solid var(--line);color:var(--soft);font-weight:600}
.facts th{color:var(--soft);font-weight:600;white-space:nowrap}
.tally{list-style:none;margin:0;padding:0;display:flex;flex-wrap:wrap;gap:0 1.6rem}
.race{color:var(--race);font-weight:700}
.free{color:var(--free);font-weight:700}
.group{border-top:1px solid var(--line);margin-top:1.2rem}
.reason{background:var(--band);padding:.6rem .9rem;margin:.6rem 0}
dl{display:grid;grid-template-columns:max-content 1fr;gap:.15rem .9rem;margin:0}
dt{font-weight:600}
dd{margin:0}
.alike{margin:.4rem 0 0;color:var(--soft)}
figure{margin:1rem 0}
figcaption{font-size:.9rem;color:var(--soft);margin-bottom:.3rem}
figure:target{outline:3px solid var(--link);outline-offset:4px}
svg{display:block;max-width:100%;height:auto}
@media screen{svg.wide{max-width:none}}
svg.bytes text{font-family:monospace;font-size:12px;fill:var(--ink)}
svg.bytes .in,svg.bytes .stale,svg.bytes .scale{text-anchor:middle}
svg.bytes .in,svg.bytes .stale{paint-order:stroke;stroke:var(--paper);stroke-width:4px;stroke-linejoin:round}
svg.bytes .stale{font-weight:bold;fill:var(--race)}
svg.bytes .bar{font-weight:bold}
svg.bytes .scale{fill:var(--soft)}
svg.bytes rect{stroke:var(--soft);stroke-width:1}
svg.bytes .written{fill:var(--written)}
svg.bytes .unwritten{fill:var(--paper)}
svg.bytes .left{fill:var(--band);stroke-dasharray:4 3}
svg.bytes .hatch{fill:url(#hatch);stroke:var(--race);stroke-width:3}
.defs{position:absolute;width:0;height:0}
.defs path{stroke:var(--hatch);stroke-width:1.5;opacity:.55}
@media (max-width:700px){main{padding:16px 12px 40px}dl{grid-template-columns:1fr}dd{margin-bottom:.4rem}figure svg{max-width:none}}
@media print{@page{size:A4;margin:15mm 14mm}
html{font-size:10.5pt;print-color-adjust:exact;-webkit-print-color-adjust:exact}
main{max-width:none;padding:0}
nav{display:none}
a{color:inherit;text-decoration:none}
h1,h2,h3,h4,h5,figcaption{break-after:avoid}
figure,tr,.reason,.short{break-inside:avoid}
p,li,dd{orphans:3;widows:3}
.scroll{overflow:visible}
figure svg{max-width:100%;max-height:235mm}}
";
