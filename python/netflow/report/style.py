"""The style sheets and the script of the pages."""

DRAWING_STYLE = """
:root{color-scheme:light dark;--ink:#1d2530;--dim:#667180;--back:#fff;--soft:#f2f4f7;--line:#d9dee5;--used:#2f74b5;--full:#c9660a;
--across:#c0282d;--full-back:#fdf0e1;--low-back:#e8f1fb;--idle:#8d97a5;--edge:#0004;--node:#fff;--gives:#e5f3ea;--needs:#e8f0fb;--marked:#fbe6e6}
@media (prefers-color-scheme:dark){:root{--ink:#e4e8ee;--dim:#98a3b2;--back:#151a21;--soft:#1f2630;--line:#37414e;--used:#69abe8;
--full:#f0a04b;--across:#ff7276;--full-back:#3a2a17;--low-back:#1c2d42;--idle:#7c8897;--edge:#fff4;--node:#1f2630;--gives:#1c3326;--needs:#1d2c42;
--marked:#44201f}}
svg text{font:13px system-ui,sans-serif;fill:var(--ink);text-anchor:middle}.node rect{fill:var(--node);stroke:var(--dim)}
.node.gives rect{fill:var(--gives)}.node.needs rect{fill:var(--needs)}
.node.marked rect{fill:var(--marked);stroke:var(--across);stroke-width:2}.node .line1{fill:var(--dim);font-size:12px}
.arc path{fill:none}.arc text{font-size:12px;font-weight:600}.number rect{fill:var(--back)}.band{fill:none;stroke:var(--line)}text.period{font-size:15px;font-weight:600;fill:var(--dim)}
.idle path{stroke:var(--idle);stroke-dasharray:4 3}.used path{stroke:var(--used)}.full path{stroke:var(--full)}.across path{stroke:var(--across)}
.head path{stroke:none;stroke-dasharray:none}.head.idle path{fill:var(--idle)}.head.used path{fill:var(--used)}
.head.full path{fill:var(--full)}.head.across path{fill:var(--across)}
.large .number{display:none}.large .number.near{display:inline}.arc.faint{opacity:.07}.node:focus{outline:none}.node:focus rect,.node:hover rect{stroke:var(--ink);stroke-width:2}
@media print{svg{max-width:100%;height:auto}.large .number{display:none}}
"""

PAGE_STYLE = (
    DRAWING_STYLE
    + """
*{box-sizing:border-box}
body{font:15px/1.5 system-ui,sans-serif;color:var(--ink);background:var(--back);margin:0 auto;max-width:1240px;padding:20px 16px 40px}
h1{font-size:1.4rem;line-height:1.3;margin:0 0 4px;display:-webkit-box;-webkit-line-clamp:2;-webkit-box-orient:vertical;overflow:hidden}h1.long{font-size:1.25rem}h1.longest{font-size:1.1rem}h2{font-size:1.15rem;margin:32px 0 6px}h3{font-size:1rem;margin:14px 0 4px}p{margin:4px 0 8px}
.value{font-size:1.75rem;font-weight:650;overflow-wrap:anywhere}.none{color:var(--across)}.reason{font-size:1.1rem;font-weight:600}
footer,.dim{color:var(--dim)}footer{margin-top:36px;font-size:.85rem}
.scroll{max-height:30rem;overflow:auto;border:1px solid var(--line);border-radius:6px;width:fit-content;max-width:100%;
background:linear-gradient(to left,var(--back) 40%,transparent) 100% 0/60px 100% no-repeat local,
linear-gradient(to left,var(--edge),transparent) 100% 0/18px 100% no-repeat}
table{border-collapse:collapse;font-variant-numeric:tabular-nums}
th{position:sticky;top:0;background:var(--soft);padding:0;text-align:left;white-space:nowrap}
th button{all:unset;cursor:pointer;padding:4px 12px;display:block;width:100%;box-sizing:border-box;font-weight:600}th.number button{text-align:right}
th button:focus-visible{outline:2px solid var(--used);outline-offset:-2px}
th[aria-sort=ascending] button::after{content:" \\2191"}th[aria-sort=descending] button::after{content:" \\2193"}
td{padding:3px 12px;border-top:1px solid var(--line)}td.number{text-align:right;white-space:nowrap}td.flow{font-weight:600}td.end{color:var(--dim)}
tr.full td{background:var(--full-back)}tr.lowest td{background:var(--low-back)}
span.full{background:var(--full-back);padding:0 5px;border-radius:3px}
span.lowest{background:var(--low-back);padding:0 5px;border-radius:3px}
tr.more,.later{display:none}section.all tr.more,section.found tr.more{display:table-row}section.all .later,section.found .later{display:block}
section.found tr.out{display:none}.find{display:flex;flex-wrap:wrap;gap:4px 18px;align-items:center}
input[type=search]{font:inherit;color:inherit;background:var(--back);border:1px solid var(--line);border-radius:5px;padding:2px 8px;width:13rem}
summary{cursor:pointer;margin:8px 0}
th.wrap button{white-space:normal;min-width:8rem;max-width:11rem;margin-left:auto}.numbers td{white-space:nowrap}
.toggle,.tools button{font:inherit;font-size:.9rem;color:inherit;background:var(--soft);border:1px solid var(--line);
border-radius:5px;padding:2px 10px;cursor:pointer}
.pair{display:flex;flex-wrap:wrap;gap:8px 32px}.pair>div{max-width:100%}.pair div>.scroll{max-height:none}
.picture{border:1px solid var(--line);border-radius:6px;overflow:auto;max-height:85vh;background:var(--back)}svg{display:block;margin:0 auto}
.parts{column-width:var(--widest);column-gap:8px}.parts svg{break-inside:avoid}
.more-right,.more-down{display:none;color:var(--dim)}.is-cut .more-right,.is-long .more-down{display:inline}
.grid td{text-align:right}.grid td,.grid th button{padding-left:8px;padding-right:8px}.grid td:first-child,.grid td.key{text-align:left;position:sticky;left:0;background:var(--back)}
.grid th:first-child{left:0;z-index:1}.grid td.key~td.key{position:static}.grid td.zero{color:var(--dim)}.grid td.full{background:var(--full-back)}
.grid td.chosen,.grid th.chosen button{text-align:center}.grid td.none{background:var(--soft)}.grid tr.sum td{font-weight:600;border-top:2px solid var(--line);position:sticky;bottom:0;background:var(--back)}.as-grid .scroll{max-height:40rem}.print-note{display:none}.grid td.sum{font-weight:600}
a{color:var(--used)}.summary td:first-child{font-weight:600}.unit{font-size:1.1rem;font-weight:400;color:var(--dim)}
p.key{display:flex;flex-wrap:wrap;gap:4px 18px;align-items:center}
.key i{display:inline-block;width:26px;height:0;border-top:4px solid;margin-right:6px;vertical-align:middle}
.key .idle{border-top:2px dashed var(--idle)}.key .used{border-color:var(--used)}.key .full{border-color:var(--full)}
.key .across{border-color:var(--across)}
@media (max-width:700px){h1.long{font-size:1.05rem}h1.longest{font-size:.85rem}table{font-size:.87rem}td,th button{padding-left:6px;padding-right:6px}.grid td,.grid th button{padding-left:4px;padding-right:4px}
th,.numbers td:not(.number){white-space:normal}th.wrap button{min-width:0}th.end,td.end{display:none}.grid.wordy th.number button{display:inline-block;writing-mode:vertical-rl;transform:rotate(180deg);padding:6px 2px}}
.grid.long th.number button{display:inline-block;writing-mode:vertical-rl;transform:rotate(180deg);padding:6px 2px}.grid.long th,.grid.wordy th{vertical-align:bottom}.grid.long th.number,.grid.wordy th.number{text-align:right}
@media print{body{max-width:none;padding:0 1px;font-size:11px}.scroll,.picture{max-height:none;overflow:visible;border-color:#bbb;background:none}
.picture svg{width:100%!important;height:auto!important;max-height:18cm}.picture.tall svg{max-height:24cm}.screen{display:none}.print-note{display:block}
.parts{column-width:calc(var(--widest)*.75)!important}.parts svg{width:calc(var(--wide)*.75)!important}.toggle,.tools,.find,.point,details:not([open]),.more-right,.more-down{display:none!important}summary{list-style:none;font-weight:600}
th,.grid tr.sum td,.grid td:first-child,.grid td.key{position:static;background:none}thead th{background:var(--soft)}.grid.long thead{display:table-row-group}.grid.long{font-size:9px}.grid.long td,.grid.long th{padding:1px 2px!important}.grid.long th.number button{padding:2px 0}.as-grid{break-inside:avoid}.as-grid .scroll{max-height:none}tfoot{display:table-row-group}th button{display:contents}th.number{text-align:right}td,th{padding:1px 6px!important}.scroll{max-width:100%;width:100%}table{width:100%}tr,.picture.whole{break-inside:avoid}
section{break-inside:auto}h2,h3{break-after:avoid}}
@page{margin:1.4cm}
"""
)

SCRIPT = """
function value(cell){return cell.dataset.n===undefined?cell.textContent:cell.dataset.n}
document.querySelectorAll('th button').forEach(function(button){button.onclick=function(){
 var th=button.parentNode,body=th.closest('table').tBodies[0],place=th.cellIndex,up=th.getAttribute('aria-sort')!=='ascending';
 th.parentNode.querySelectorAll('th').forEach(function(head){head.removeAttribute('aria-sort')});th.setAttribute('aria-sort',up?'ascending':'descending');
 var rows=Array.from(body.rows).map(function(row){return [value(row.cells[place]),row]});
 rows.sort(function(one,two){var a=one[0],b=two[0],both=a!==''&&b!==''&&!isNaN(a)&&!isNaN(b);
  if(a===''||b==='')return (a==='')-(b==='');return (up?1:-1)*(both?a-b:a.localeCompare(b,undefined,{numeric:true}))});
 rows.forEach(function(pair){body.append(pair[1])})}});
document.querySelectorAll('.toggle').forEach(function(button){button.onclick=function(){
 var all=button.closest('section').classList.toggle('all');button.setAttribute('aria-expanded',all);
 button.textContent=button.textContent.replace(/^(show|hide)/,all?'hide':'show')}});
document.querySelectorAll('.find').forEach(function(line){
 var section=line.closest('section'),rows=Array.from(section.querySelector('tbody').rows),words=line.querySelector('[type=search]');
 var full=line.querySelector('[type=checkbox]'),label=line.querySelector('span');
 function find(){var all=words.value.toLowerCase().split(' ').filter(Boolean),count=0,on=all.length>0||full&&full.checked;
  rows.forEach(function(row){var text=Array.from(row.cells).map(function(cell){return (cell.textContent+' '+(cell.dataset.n||'')).toLowerCase()}).join('\\n');
   var hit=all.every(function(word){return text.includes(word)})&&!(full&&full.checked&&!row.classList.contains('full'));
   row.classList.toggle('out',!hit);count+=hit});
  section.classList.toggle('found',on);label.textContent=on?count+' of '+rows.length:''}
 words.oninput=find;if(full)full.onchange=find});
(function(){var box=document.querySelector('.picture');if(!box)return;
 var all=Array.from(box.querySelectorAll('svg')),widest=0,scale=1,arcs=Array.from(box.querySelectorAll('.arc'));
 all.forEach(function(svg){svg.wide=+svg.getAttribute('width');svg.high=+svg.getAttribute('height');widest=Math.max(widest,svg.wide)});
 function size(to){scale=Math.min(4,Math.max(.1,to));
  all.forEach(function(svg){svg.setAttribute('width',svg.wide*scale);svg.setAttribute('height',svg.high*scale)});
  box.firstChild.style.columnWidth=widest*scale+'px';
  var marks=box.closest('section').classList;marks.toggle('is-cut',box.scrollWidth>box.clientWidth+1);
  marks.toggle('is-long',box.scrollHeight>box.clientHeight+1)}
 function fit(){return box.clientWidth/widest}
 size(fit()>(innerWidth<700?.25:.38)?Math.min(1,fit()):.45);onresize=function(){size(scale)};
 document.querySelectorAll('.tools button').forEach(function(button){button.onclick=function(){
  var to=button.dataset.scale;size(to==='fit'?fit():scale*to)}});
 box.querySelectorAll('.node').forEach(function(node){
  function show(on){return function(){arcs.forEach(function(arc){var its=arc.classList.contains(node.id);
   arc.classList.toggle('faint',on&&!its);arc.classList.toggle('near',on&&its)})}}
  node.onmouseenter=node.onfocus=show(true);node.onmouseleave=node.onblur=show(false)})})();
"""
