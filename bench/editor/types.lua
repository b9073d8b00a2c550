-- Insert mode with the editor's own completion, for a person or for keys that are fed: WS a module, SERVER the server, WHICH=gopls for the peer.
vim.opt.swapfile=false; vim.opt.shadafile='NONE'; vim.opt.completeopt='menuone,noinsert'
local cmd= os.getenv('WHICH')=='gopls' and {'gopls'} or vim.split(os.getenv('SERVER') or './govisd lsp',' ')
vim.api.nvim_create_autocmd('BufReadPost',{pattern='*.go',callback=function() local id=vim.lsp.start_client{cmd=cmd,root_dir=os.getenv('WS'),name='x'}; vim.lsp.buf_attach_client(0,id); vim.bo.omnifunc='v:lua.vim.lsp.omnifunc' end})
