-- Starts `pdsuite lsp` for scripts and their settings, in Neovim 0.7.2 and later. Vim doesn't read this file.
if vim.g.loaded_pdsuite then
  return
end
vim.g.loaded_pdsuite = true
vim.api.nvim_create_autocmd({ 'BufNewFile', 'BufReadPost' }, {
  pattern = { '*.pkt', 'pdsuite.toml' },
  callback = function(event)
    require('pdsuite').attach(event.buf)
  end,
})
