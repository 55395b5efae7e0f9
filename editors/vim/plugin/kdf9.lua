-- Starts the language server for jobs and decks in Neovim. vim.g.kdf9 is the command, if it isn't kdf9 or that of this folder; vim.g.kdf9_lsp = false starts none.
local here = vim.fn.resolve(vim.fn.fnamemodify(debug.getinfo(1, "S").source:sub(2), ":p:h") .. "/../../../kdf9")
local client

local function command()
  return vim.g.kdf9 or (vim.fn.executable(here) == 1 and here or "kdf9")
end

local function start()
  if vim.g.kdf9_lsp == false then return end
  if not client or not vim.lsp.get_client_by_id(client) then
    client = vim.lsp.start_client({ name = "kdf9", cmd = { command(), "lsp" }, root_dir = vim.fn.getcwd() })
  end
  if client then vim.lsp.buf_attach_client(0, client) end
end

vim.api.nvim_create_autocmd("FileType", { pattern = { "usercode", "kdf9job" }, callback = start })
