-- Starts titan_lsp for programs *.ti, by Neovim's own client. In init.lua:
--
--     dofile('/path/to/editors/nvim/titan_lsp.lua')
--
-- vim.g.titan_lsp is the command, `titan_lsp` if it isn't set. Neovim shows the diagnostics; `vim.lsp.buf.hover()` says more about one, and
-- `vim.lsp.buf.code_action()` offers the fix.
local client

local function start(config, buffer)
  if vim.lsp.start then
    vim.lsp.start(config)
    return
  end
  -- before Neovim 0.8
  if not client then
    config.on_exit = function() client = nil end
    client = vim.lsp.start_client(config)
  end
  if client then vim.lsp.buf_attach_client(buffer, client) end
end

vim.api.nvim_create_autocmd({ 'BufRead', 'BufNewFile' }, {
  pattern = '*.ti',
  command = 'set filetype=titan',
})
vim.api.nvim_create_autocmd('FileType', {
  pattern = 'titan',
  callback = function(event)
    local folder = vim.fn.fnamemodify(vim.api.nvim_buf_get_name(event.buf), ':h')
    start({ name = 'titan_lsp', cmd = { vim.g.titan_lsp or 'titan_lsp' }, root_dir = folder }, event.buf)
  end,
})
