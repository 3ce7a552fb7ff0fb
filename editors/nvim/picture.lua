-- The init file with which picture.sh starts Neovim: highlighting, the language server, and the hover of the first diagnostic.
vim.opt.runtimepath:prepend(vim.env.EDITORS .. '/vim')
vim.opt.number = true
vim.opt.shortmess:append('I')
vim.opt.termguicolors = true
vim.opt.background = 'light'
vim.opt.laststatus = 0
vim.opt.ruler = false
vim.cmd('highlight SignColumn guibg=NONE')
vim.cmd('highlight NormalFloat guibg=#e8e8e8')
vim.g.titan_lsp = vim.env.TITAN_LSP
dofile(vim.env.EDITORS .. '/nvim/titan_lsp.lua')

local shown = false
vim.api.nvim_create_autocmd('DiagnosticChanged', {
  callback = function()
    local found = vim.diagnostic.get(0)[1]
    if shown or not found then return end
    shown = true
    vim.api.nvim_win_set_cursor(0, { found.lnum + 1, found.col })
    -- not at once, since the hover closes when the cursor moves
    vim.defer_fn(vim.lsp.buf.hover, 500)
    vim.defer_fn(function() vim.fn.writefile({}, vim.env.READY) end, 2000)
  end,
})
