-- Neovim 0.7 or later: in init.lua, `dofile("PATH/neovim.lua")`.
vim.api.nvim_create_autocmd({ "BufRead", "BufNewFile" }, {
  pattern = "*.pest",
  callback = function(args)
    vim.bo[args.buf].filetype = "pest"
  end,
})

-- `vim.lsp.start` came with 0.8; one client serves all buffers.
local client
local start = vim.lsp.start or function(config)
  client = client or vim.lsp.start_client(config)
  vim.lsp.buf_attach_client(0, client)
end

vim.api.nvim_create_autocmd("FileType", {
  pattern = "pest",
  callback = function(args)
    start({
      name = "pest",
      cmd = { "pest-language-server" },
      root_dir = vim.fn.fnamemodify(vim.api.nvim_buf_get_name(args.buf), ":p:h"),
    })
  end,
})
