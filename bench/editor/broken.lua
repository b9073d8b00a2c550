local which=os.getenv('WHICH') or 'govisd'
local root=os.getenv('WS') or 'ws120'
local outp=io.open(os.getenv('OUT'),'w')
local function say(...) local t={...}; for i,x in ipairs(t) do t[i]=type(x)=='string' and x or vim.inspect(x):gsub('%s+',' ') end; outp:write(table.concat(t,' ')..'\n'); outp:flush() end
local cmd= which=='gopls' and {'gopls'} or vim.split(os.getenv('SERVER') or './govisd lsp',' ')
local now=function() return vim.loop.hrtime()/1e6 end
local diags={}; local seq=0; local count=0
local id=vim.lsp.start_client{cmd=cmd,root_dir=root,name=which,flags={debounce_text_changes=0},handlers={['textDocument/publishDiagnostics']=function(e,r) seq=seq+1; diags[r.uri]={t=now(),n=seq,list=r.diagnostics,version=r.version} end,['window/showMessage']=function() end,['window/logMessage']=function() end}}
vim.cmd('edit '..root..'/main.go'); vim.bo.filetype='go'; local buf=vim.api.nvim_get_current_buf(); local uri=vim.uri_from_bufnr(buf); vim.lsp.buf_attach_client(buf,id)
vim.wait(20000,function() return diags[uri]~=nil end,1); vim.wait(800)
local function req(m,p) local t=now(); local r=vim.lsp.buf_request_sync(buf,m,p,10000); local x=r and r[id]; return x and x.result, now()-t, x and x.error end
local function find(s) for i,l in ipairs(vim.api.nvim_buf_get_lines(buf,0,-1,false)) do local a=l:find(s,1,true); if a then return i-1,a-1 end end end
local function P(l,c) return {textDocument={uri=uri},position={line=l,character=c},context={includeDeclaration=true}} end
local function set(l,t) vim.api.nvim_buf_set_lines(buf,l,l+1,false,{t}) end
-- broken text
local l=find('println(size(r))'); local last='\tprintln(size(r))'
for _,t in ipairs{'\tr.','\tif r.Width > ','\tx := ','\tfoo(','\t"abc'} do
  set(l,t); vim.wait(400)
  local a,b=find('p9.Make'); local d=req('textDocument/definition',P(a,b+4)); local h=req('textDocument/hover',P(a,b+4)); local f=req('textDocument/references',P(a,b+4))
  local ds=diags[uri].list; local ms={}; for i,x in ipairs(ds) do if i<4 then ms[#ms+1]=(x.range.start.line+1)..':'..(x.range.start.character+1)..' '..x.message end end
  say('text',vim.inspect(t),'definition',(d and (d.uri or d[1])) and 'yes' or 'no','hover',h and 'yes' or 'no','refs',f and #f or 'no','diagnostics',#ds,ms)
end
set(l,last); vim.wait(500)
-- broken lib: what do others show
vim.cmd('edit '..root..'/p0/p0.go'); vim.bo.filetype='go'; local b0=vim.api.nvim_get_current_buf(); local u0=vim.uri_from_bufnr(b0); vim.lsp.buf_attach_client(b0,id); vim.wait(800)
local function all() local n,f=0,0; for u,d in pairs(diags) do if #d.list>0 then n=n+#d.list; f=f+1 end end; return n..' in '..f..' files' end
local ls=vim.api.nvim_buf_get_lines(b0,0,-1,false); local fl; for i,x in ipairs(ls) do if x:find('s := 0',1,true) then fl=i-1 break end end
vim.api.nvim_buf_set_lines(b0,fl,fl+1,false,{'\ts := 0; s.'}); vim.wait(1500); say('p0 with `s.` in a body: diagnostics in the workspace',all())
vim.api.nvim_buf_set_lines(b0,fl,fl+1,false,{ls[fl+1]}); vim.wait(1500); say('mended',all())
-- burst: 30 face edits in p0
local ml; for i,x in ipairs(ls) do if x:find('func F0',1,true) then ml=i-1 end end
local t0=now(); local maxgap=0
for i=1,30 do vim.api.nvim_buf_set_lines(b0,ml,ml+1,false,{(ls[ml+1]:gsub('F0','F0'..string.rep('x',i)))}); vim.wait(30) end
local t1=now(); local r=vim.lsp.buf_request_sync(b0,'textDocument/hover',{textDocument={uri=u0},position={line=ml,character=6}},20000); say('30 face edits in p0 at 30 ms each took',t1-t0,'then hover answered after',now()-t1)
vim.lsp.stop_client(id); vim.wait(500); outp:close(); vim.cmd('qa!')
