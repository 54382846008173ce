-- Neovim: the language server of sfcmon for charts, scripts and tests. Copy this to ~/.config/nvim/plugin/sfcmon.lua; with nvim-dap it also
-- has the debugger. `vim.g.sfcmon` is the program, where it isn't on the path.
local program = vim.g.sfcmon or "sfcmon"

local languages = { chart = "sfc-chart", sfc = "sfc-chart", script = "sfc-script", sfctest = "sfc-test" }

vim.api.nvim_create_autocmd({ "BufRead", "BufNewFile" }, {
  pattern = { "*.chart", "*.sfc", "*.script", "*.sfctest" },
  callback = function(event) vim.bo[event.buf].filetype = languages[vim.fn.fnamemodify(event.file, ":e")] end,
})

vim.api.nvim_create_autocmd("FileType", {
  pattern = { "sfc-chart", "sfc-script", "sfc-test" },
  callback = function(event)
    local folder = vim.fn.fnamemodify(vim.api.nvim_buf_get_name(event.buf), ":p:h")
    local given = { name = "sfcmon", cmd = { program, "lsp" }, root_dir = folder }
    if vim.lsp.start then
      vim.lsp.start(given, { bufnr = event.buf })
    else
      -- Neovim 0.7
      vim.g.sfcmon_client = vim.g.sfcmon_client or vim.lsp.start_client(given)
      vim.lsp.buf_attach_client(event.buf, vim.g.sfcmon_client)
    end
  end,
})

local has_dap, dap = pcall(require, "dap")
if has_dap then
  dap.adapters.sfcmon = { type = "executable", command = program, args = { "dap" } }
  dap.configurations["sfc-chart"] = {
    { type = "sfcmon", request = "launch", name = "Debug the chart", program = "${file}", stopOnEntry = true },
  }
end
