-- nvim-dap debugs a recorded run. Neovim starts in the folder of the clone, or NEZDRAB names it.
-- dap.step_back() and dap.reverse_continue() go back.
local dap = require("dap")
local clone = os.getenv("NEZDRAB") or vim.fn.getcwd()
local ledger = clone .. "/examples/ledger/"

dap.adapters.nezdrab = { type = "executable", command = clone .. "/explore", args = { "dap" } }

dap.configurations.text = {
  {
    type = "nezdrab",
    request = "launch",
    name = "The hunt in the ledger",
    session = ledger .. "ledger.session",
    symbols = {
      { path = ledger .. "kernel.sym", mode = "kernel" },
      { path = ledger .. "user.sym", mode = "user" },
    },
    listings = {
      { path = ledger .. "ledger.lst", mode = "kernel", last = "17777" },
      { path = ledger .. "ledger.lst", mode = "user", first = "20000", moved = "-20000" },
    },
    turn = 128066,
    ["end"] = 238614,
  },
}
