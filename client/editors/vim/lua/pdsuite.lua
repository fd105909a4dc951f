-- The language server in Neovim: one server for a folder, its keys in each buffer, and pages opened outside.
local M = {}

-- The command that is started; a list of words in g:pdsuite_command takes its place.
local COMMAND = { 'pdsuite', 'lsp' }
-- The milliseconds after a key until the server hears of it.
local DEBOUNCE = 20
local servers = {}

-- The nearest folder above a file that is a repository's, else the one that has settings, else the file's own.
local function root_of(file)
  local folder = vim.fn.fnamemodify(file, ':p:h')
  local git = vim.fn.finddir('.git', vim.fn.escape(folder, ' ') .. ';')
  if git ~= '' then
    return vim.fn.fnamemodify(git, ':p:h:h')
  end
  local settings = vim.fn.findfile('pdsuite.toml', vim.fn.escape(folder, ' ') .. ';')
  return settings ~= '' and vim.fn.fnamemodify(settings, ':p:h') or folder
end

local function capabilities()
  local known = vim.lsp.protocol.make_client_capabilities()
  known.window = vim.tbl_extend('force', known.window or {}, { showDocument = { support = true } })
  return known
end

local function open_outside(_, params)
  vim.fn.jobstart({ 'xdg-open', params.uri }, { detach = true })
  return { success = true }
end

-- What is told anew of a script is so of the line above it, too, also where the sender has changed and no text. Neovim
-- asks for that line by itself only since 0.10.
local function publish(fault, result, context, config)
  vim.lsp.diagnostic.on_publish_diagnostics(fault, result, context, config)
  local buffer = vim.uri_to_bufnr(result.uri)
  if vim.api.nvim_buf_is_loaded(buffer) and vim.lsp.buf_is_attached(buffer, context.client_id) then
    vim.api.nvim_buf_call(buffer, function()
      vim.lsp.codelens.refresh()
    end)
  end
end

local function on_attach(_, buffer)
  local function map(keys, action, what)
    vim.keymap.set('n', keys, action, { buffer = buffer, desc = what })
  end
  vim.bo[buffer].omnifunc = 'v:lua.vim.lsp.omnifunc'
  map('K', vim.lsp.buf.hover, 'what was sent, and how the sender stands')
  map('<LocalLeader>t', M.take, 'take over what was sent')
  map('<LocalLeader>a', vim.lsp.buf.code_action, 'all that can be done about the line')
  map('<LocalLeader>l', vim.lsp.codelens.run, 'draw the script')
  map('<LocalLeader>o', vim.lsp.buf.document_symbol, 'the sections of the script')
  map(']d', vim.diagnostic.goto_next, 'the next failing line')
  map('[d', vim.diagnostic.goto_prev, 'the failing line before')
  vim.api.nvim_create_autocmd({ 'BufEnter', 'InsertLeave', 'TextChanged' }, {
    buffer = buffer,
    callback = function()
      vim.lsp.codelens.refresh()
    end,
  })
end

-- Has the server of a buffer's folder serve it; where none runs, starts one.
function M.attach(buffer)
  local root = root_of(vim.api.nvim_buf_get_name(buffer))
  local running = servers[root] and vim.lsp.get_client_by_id(servers[root])
  if not running or running.is_stopped() then
    servers[root] = vim.lsp.start_client({
      name = 'pdsuite',
      cmd = vim.g.pdsuite_command or COMMAND,
      root_dir = root,
      workspace_folders = { { uri = vim.uri_from_fname(root), name = root } },
      capabilities = capabilities(),
      flags = { debounce_text_changes = DEBOUNCE },
      handlers = { ['window/showDocument'] = open_outside, ['textDocument/publishDiagnostics'] = publish },
      on_attach = on_attach,
    })
  end
  if servers[root] then
    vim.lsp.buf_attach_client(buffer, servers[root])
  end
end

-- Takes over what was sent at the line of the cursor: the action that the server prefers.
function M.take()
  local params = vim.lsp.util.make_range_params()
  local line = vim.api.nvim_win_get_cursor(0)[1] - 1
  params.range = { start = { line = line, character = 0 }, ['end'] = { line = line + 1, character = 0 } }
  params.context = { diagnostics = {}, only = { 'quickfix' } }
  local answers = vim.lsp.buf_request_sync(0, 'textDocument/codeAction', params, 2000) or {}
  for id, answer in pairs(answers) do
    for _, action in ipairs(answer.result or {}) do
      if action.isPreferred and action.edit then
        local client = vim.lsp.get_client_by_id(id)
        vim.lsp.util.apply_workspace_edit(action.edit, client.offset_encoding)
        return action.title
      end
    end
  end
  vim.notify('pdsuite: nothing was sent here that the line could take')
end

return M
