-- For Neovim from 0.7 on: the language server for texts of talc. `:luafile editors/neovim/talc.lua`, or a line
-- `dofile('.../talc.lua')` in init.lua, beside the files of editors/vim, which tell what a text is and have its
-- colours. vim.g.talc_server names the server, where it is not talc-lsp of the PATH; vim.g.talc_program the program.
local function start(given)
  local command = vim.g.talc_server or 'talc-lsp'
  if vim.fn.executable(command) ~= 1 then
    return
  end
  local config = {
    name = 'talc',
    cmd = { command },
    root_dir = vim.fn.fnamemodify(vim.api.nvim_buf_get_name(given.buf), ':p:h'),
    init_options = { path = vim.g.talc_program },
  }
  if vim.lsp.start then
    vim.lsp.start(config, { bufnr = given.buf })
  else
    vim.g.talc_client = vim.g.talc_client or vim.lsp.start_client(config)
    vim.lsp.buf_attach_client(given.buf, vim.g.talc_client)
  end
  local keys = {
    K = vim.lsp.buf.hover, gd = vim.lsp.buf.definition, gr = vim.lsp.buf.references, ['<F2>'] = vim.lsp.buf.rename,
    ['<F4>'] = vim.lsp.buf.code_action,
  }
  for key, call in pairs(keys) do
    vim.keymap.set('n', key, function() call() end, { buffer = given.buf })
  end
end

vim.api.nvim_create_autocmd('FileType', { pattern = { 'talc_source', 'talc_tal' }, callback = start })
