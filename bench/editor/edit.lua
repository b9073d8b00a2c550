local which=os.getenv('WHICH') or 'govisd'
local root=os.getenv('WS') or 'ws'
local outp=io.open(os.getenv('OUT') or 'out.txt','w')
local function say(...) local t={...}; for i,x in ipairs(t) do t[i]=type(x)=='string' and x or vim.inspect(x):gsub('%s+',' ') end; outp:write(table.concat(t,' ')..'\n'); outp:flush() end
local cmd= which=='gopls' and {'gopls'} or vim.split(os.getenv('SERVER') or './govisd lsp',' ')
local now=function() return vim.loop.hrtime()/1e6 end
local diags={}  -- uri -> {time, list}
local seq=0
local t0=now()
local caps=vim.lsp.protocol.make_client_capabilities()
local id=vim.lsp.start_client{cmd=cmd,root_dir=root,name=which,capabilities=caps,
  flags={debounce_text_changes=0,allow_incremental_sync=true},
  init_options= nil,
  handlers={['textDocument/publishDiagnostics']=function(err,res,ctx,cfg)
     seq=seq+1; diags[res.uri]={t=now(),n=seq,list=res.diagnostics,version=res.version}
     vim.lsp.diagnostic.on_publish_diagnostics(err,res,ctx,cfg) end,
   ['window/showMessage']=function(e,r) say('showMessage',r.message) end,
   ['window/logMessage']=function(e,r) end}}
vim.cmd('edit '..root..'/main.go'); vim.bo.filetype='go'
local buf=vim.api.nvim_get_current_buf(); local uri=vim.uri_from_bufnr(buf)
vim.lsp.buf_attach_client(buf,id)
local client=vim.lsp.get_client_by_id(id)
vim.wait(20000,function() return client and client.initialized end,1)
say('initialized ms',now()-t0)
local ok=vim.wait(30000,function() return diags[uri]~=nil end,1)
say('first diagnostics ms',now()-t0, diags[uri] and #diags[uri].list or 'none')
local function req(m,p) local t=now(); local r=vim.lsp.buf_request_sync(buf,m,p,10000); local d=now()-t; local x=r and r[id]; return x and x.result, d, x and x.error end
local function at(l,c) return {textDocument={uri=uri},position={line=l,character=c}} end
local function find(s,k) local ls=vim.api.nvim_buf_get_lines(buf,0,-1,false); local n=0; for i,l in ipairs(ls) do local a=l:find(s,1,true); if a then n=n+1; if n==(k or 1) then return i-1,a-1 end end end end
local function u16(l,c) local s=vim.api.nvim_buf_get_lines(buf,l,l+1,false)[1]; local _,u=vim.str_utfindex(s,c); return u end
local tset=0
local function set(l,text) tset=now(); vim.api.nvim_buf_set_lines(buf,l,l+1,false,{text}) end
-- wait for a diagnostics whose state satisfies pred
local function waitd(pred,u) u=u or uri; local n0=seq; local t=tset; local ok=vim.wait(8000,function() local d=diags[u]; return d and d.n>n0 and pred(d.list) end,1); return ok and (diags[u].t-t) or -1 end
local function msgs(u) local o={}; for _,d in ipairs((diags[u or uri] or {list={}}).list) do o[#o+1]=string.format('%d:%d-%d:%d %s',d.range.start.line,d.range.start.character,d.range['end'].line,d.range['end'].character,d.message) end; return o end
vim.wait(300)
-- 1 definition (behind é😀)
local l,c=find('r.Area()'); local ar=u16(l,c+2)
local r,d,e=req('textDocument/definition',at(l,ar)); say('definition Area',r,'ms',d)
-- 2 hover
r,d,e=req('textDocument/hover',at(l,ar)); say('hover Area',r and r.contents,'ms',d)
l,c=find('p9.Make'); r,d=req('textDocument/hover',at(l,c+4)); say('hover Make',r and r.contents,'ms',d)
l,c=find('r := '); r,d=req('textDocument/hover',at(l,c)); say('hover local r (declaration)',r and r.contents or 'nothing','ms',d)
l,c=find('size(r)'); r,d=req('textDocument/hover',at(l,c+5)); say('hover local r (use)',r and r.contents or 'nothing','ms',d)
-- 3 diagnostics on change
l,c=find('q := p0.Make'); local good=vim.api.nvim_buf_get_lines(buf,l,l+1,false)[1]
local ts={}
for i=1,20 do
  set(l,good:gsub('Make','Mak')); local a=waitd(function(x) return #x>0 end); if i==1 then say('diag msgs',msgs()) end
  set(l,good); local b=waitd(function(x) return #x==0 end); ts[#ts+1]=a; ts[#ts+1]=b; vim.wait(20)
end
table.sort(ts); say('keystroke->diagnostics ms: min',ts[1],'median',ts[math.floor(#ts/2)],'max',ts[#ts])
-- 4 completion asis: identifier present
l,c=find('p9.Make'); ts={}
for i=1,20 do r,d=req('textDocument/completion',at(l,c+5)); ts[#ts+1]=d end
table.sort(ts); local items=r and (r.items or r) or {}
say('completion p9.Ma| items',#items,items[1] and items[1].label,items[1] and items[1].kind,items[1] and items[1].detail,'median ms',ts[10],'max',ts[20])
-- 5 completion at half-written texts
l,c=find('println(size(r))'); local last=vim.api.nvim_buf_get_lines(buf,l,l+1,false)[1]
for _,text in ipairs{'\tr.','\tr.A','\tx := r.','\tprintln(r.','\tprintln(size(r.','\tif r.','\tfor i := 0; i < r.','\tr.Width = p9.','\treturn p9.','\tp9.Box9{','\tvar b p9.','\tif q.Width > 1 { r.','\tp','\tq.Wi','\tprintln(q.Width, r.','\tfmt.','\tp4.'} do
  set(l,text); ts={}
  for i=1,5 do r,d,e=req('textDocument/completion',at(l,#text)); ts[#ts+1]=d end
  table.sort(ts); items=r and (r.items or r) or {}
  local names={}; for i=1,math.min(#items,6) do names[i]=items[i].label..(items[i].detail and ('<'..items[i].detail:gsub('%s+',' ')..'>') or '') end
  say('complete',vim.inspect(text),'->',#items,table.concat(names,', '),'median ms',ts[3], e and e or '')
  vim.wait(50)
end
set(l,last); vim.wait(600)
-- 5b deletion of a brace elsewhere, completion in another function
local l2=find('func size('); local line2=vim.api.nvim_buf_get_lines(buf,l2,l2+1,false)[1]
set(l2,'func size(s p9.Shape) int { return s.Area() '); set(l,'\tr.')
r,d=req('textDocument/completion',at(l,3)); items=r and (r.items or r) or {}
say('complete with a broken neighbour ->',#items,items[1] and items[1].label)
set(l2,line2); set(l,last); vim.wait(600)
-- 6 references, rename
l,c=find('p9.Make'); r,d,e=req('textDocument/references',{textDocument={uri=uri},position={line=l,character=c+4},context={includeDeclaration=true}}); say('references of p9.Make',r and #r or e,'ms',d)
l,c=find('p9.Make'); r,d,e=req('textDocument/rename',{textDocument={uri=uri},position={line=l,character=c+4},newName='Build'}); local n=0; if r then for u,x in pairs(r.changes or {}) do n=n+#x end; for _,x in ipairs(r.documentChanges or {}) do n=n+#x.edits end end; say('rename p9.Make edits',n,e or '','ms',d)
r,d,e=req('textDocument/documentSymbol',{textDocument={uri=uri}}); say('documentSymbol',r and #r or e,'ms',d)
-- 7 diagnostics of another package after an edit of p9
vim.cmd('edit '..root..'/p9/p9.go'); vim.bo.filetype='go'; local b2=vim.api.nvim_get_current_buf(); local u2=vim.uri_from_bufnr(b2); vim.lsp.buf_attach_client(b2,id); vim.wait(800)
local ls=vim.api.nvim_buf_get_lines(b2,0,-1,false); local ml; for i,x in ipairs(ls) do if x:find('func Make',1,true) then ml=i-1 end end
ts={}
for i=1,10 do
tset=now(); vim.api.nvim_buf_set_lines(b2,ml,ml+1,false,{(ls[ml+1]:gsub('Make','Mke'))}); local a=waitd(function(x) return #x>0 end,uri); ts[#ts+1]=a
if i==1 then say('other package msgs',msgs(uri)) end
vim.wait(20); tset=now(); vim.api.nvim_buf_set_lines(b2,ml,ml+1,false,{ls[ml+1]}); local b=waitd(function(x) return #x==0 end,uri); ts[#ts+1]=b end
table.sort(ts); say('keystroke in p9 -> diagnostics of main.go: min',ts[1],'median',ts[10],'max',ts[#ts])
-- 8 typing quickly 60 characters
vim.cmd('buffer '..buf); l,c=find('println(size(r))'); local t=now(); local word='println(p0.Make(1, 2).Width + p9.Make(3, 4).Height + r.Area())'
for i=1,#word do set(l,'\t'..word:sub(1,i)); vim.wait(0) end
local typed=now()-t; local n0=seq; vim.wait(10000,function() local d=diags[uri]; return d and d.n>n0 and (d.version==nil or d.version==vim.lsp.util.buf_versions[buf]) and #d.list==0 end,1)
say('60 keystrokes typed in',typed,'quiet after',now()-t,'diags now',msgs())
set(l,last)
vim.lsp.stop_client(id); vim.wait(500); outp:close(); vim.cmd('qa!')
