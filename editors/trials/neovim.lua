-- For editors/test, in Neovim without a window: opens the file of TALC_FILE, waits for a fault, and shows what is told.
vim.g.talc_server = vim.env.TALC_SERVER
dofile(vim.env.TALC_SETUP)
vim.cmd('edit ' .. vim.env.TALC_FILE)
vim.bo.filetype = 'talc_source'
vim.wait(60000, function() return #vim.diagnostic.get(0) > 0 end, 50)
local fault = vim.diagnostic.get(0)[1]
local place = { textDocument = vim.lsp.util.make_text_document_params(), position = { line = 1, character = 0 } }
local function ask(method, more)
  local answers = vim.lsp.buf_request_sync(0, 'textDocument/' .. method, vim.tbl_extend('force', place, more or {}), 20000)
  for _, it in pairs(answers or {}) do
    return it.result
  end
end
local edit = ask('rename', { newName = 'other' })
vim.lsp.util.apply_workspace_edit(edit, 'utf-16')
io.stdout:write(vim.json.encode({
  fault = { fault.code, fault.lnum, fault.col, fault.end_col },
  definition = ask('definition').range.start,
  text = vim.api.nvim_buf_get_lines(0, 0, -1, true),
}) .. '\n')
vim.cmd('qa!')
