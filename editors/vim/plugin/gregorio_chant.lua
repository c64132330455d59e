-- Starts one language server for all scores that neovim has open, from version 0.7 on. `vim.g.gregorio_chant_server` is its command, if that is another one.
if vim.g.loaded_gregorio_chant or not vim.lsp then
  return
end
vim.g.loaded_gregorio_chant = true

local NAME = "gregorio-chant"
local client

local function config()
  return {
    name = NAME,
    cmd = vim.g.gregorio_chant_server or { NAME, "server" },
    root_dir = vim.fn.getcwd(),
    on_exit = function()
      client = nil
    end,
  }
end

-- Has the picture of the score opened in a browser, at the cursor.
local function show()
  local at = vim.lsp.util.make_position_params(0, "utf-16")
  local words = { command = "gregorio-chant.show", arguments = { at.textDocument.uri, at.position } }
  vim.lsp.buf_request(0, "workspace/executeCommand", words, function() end)
end

local function attach(buffer)
  if vim.fn.executable(config().cmd[1]) == 0 then
    vim.notify_once(config().cmd[1] .. " is not on the path: scores have no messages", vim.log.levels.WARN)
    return
  end
  if vim.lsp.start then
    local function is_ours(other)
      return other.name == NAME
    end
    vim.lsp.start(config(), { bufnr = buffer, reuse_client = is_ours })
  else
    client = client or vim.lsp.start_client(config())
    vim.lsp.buf_attach_client(buffer, client)
  end
  vim.api.nvim_buf_create_user_command(buffer, "GregorioShow", show, {})
  vim.bo[buffer].omnifunc = "v:lua.vim.lsp.omnifunc"
  vim.bo[buffer].formatexpr = "v:lua.vim.lsp.formatexpr()"
end

vim.api.nvim_create_autocmd("FileType", {
  pattern = "gabc",
  callback = function(event)
    attach(event.buf)
  end,
})
