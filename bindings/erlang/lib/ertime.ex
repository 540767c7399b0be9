defmodule Ertime do
  @moduledoc """
  The clock and timers of the Erlang runtime, with a clock that tests move by hand.

  This is the Erlang module `:ertime` with Elixir's conventions: `open/1` takes a keyword list. `transform/1` turns the
  calls of loaded modules, such as `Process.send_after/4` and `System.monotonic_time/1`, into calls that see the clock of
  a test; `test_helper.exs` says so once, for a whole application. `Ertime.Case` sets up a clock for each test of ExUnit.

      # test/test_helper.exs
      :ok = Ertime.transform(:my_app)
      :ok = Ertime.transform(:otp)
      ExUnit.start()

  By hand:

      iex> clock = Ertime.open(start: 0)
      iex> Ertime.use(clock)
      iex> timer = :ertime.start_timer(3_600_000, self(), :wake_up)
      iex> Ertime.advance(clock, {1, :hour})
      1
      iex> receive do: ({:timeout, ^timer, :wake_up} -> :ertime.monotonic_time(:second))
      3600
      iex> Ertime.close(clock)
      true

  Times and timers are functions of `:ertime`, with the names, arguments and results of `:erlang`.
  """

  @typedoc "A clock, as `open/1` gives it."
  @type clock :: reference()

  @typedoc "Milliseconds, or a number with its unit."
  @type duration :: integer() | {integer(), System.time_unit() | :minute | :hour | :day}

  @typedoc "Why a text has no answer: it is refused, with the message of the program, memory ran out, or it is too long."
  @type reason :: {:refused, message :: binary()} | :no_memory | :too_long

  @doc """
  Opens a clock. It stands still until it is moved, and is freed when nothing refers to it, or by `close/1`.

  - `mode:` the time warp mode, `:no_time_warp`, `:single_time_warp` or by default `:multi_time_warp`;
  - `correction:` whether time correction is on, by default `true`;
  - `start:` monotonic time at the opening in nanoseconds, a multiple of a million, by default a great negative number;
  - `os_time:` what the OS system clock tells at the opening, in nanoseconds, with a unit or as a `DateTime`, by default
    the beginning of 2026;
  - `slots:` how many timers there can be at a time, by default 1,024;
  - `drift:` by how many parts per million the OS system clock is fast, by default 0;
  - `advance:` `:by_hand`, or `:auto` for a clock that goes on by itself;
  - `limit:` how many milliseconds of real time `:auto` may take, by default `:infinity`;
  - `unturned:` `:warn`, `:error` or `:ignore`: what to do where modules of the project call functions about time and
    weren't turned, see `report/0`.

  Another option, or another value, raises `ArgumentError` with a text that names it.

      iex> clock = Ertime.open(os_time: ~U[2030-01-01 00:00:00Z])
      iex> Ertime.with(clock, &Ertime.utc_now/0)
      ~U[2030-01-01 00:00:00.000000Z]
  """
  @spec open(keyword()) :: clock()
  def open(options \\ []), do: :ertime.open(options(options))

  @doc false
  def options(options) do
    Map.new(options, fn
      {:os_time, %DateTime{} = time} ->
        {:os_time, {DateTime.to_unix(time, :nanosecond), :nanosecond}}

      option ->
        option
    end)
  end

  @doc """
  Closes a clock, and tells whether it was open. Its timers never expire then.

      iex> clock = Ertime.open()
      iex> {Ertime.close(clock), Ertime.close(clock)}
      {true, false}
  """
  @spec close(clock()) :: boolean()
  defdelegate close(clock), to: :ertime

  @doc """
  Lets the time pass, and answers how many messages were sent. The time is in milliseconds, or has a unit; with
  `:until_idle` it passes until no timer is armed.

  It goes from deadline to deadline, and after each waits until the processes of the clock rest. With `:auto` it goes on
  by itself from now on, whenever they all rest, and with `:by_hand` no longer.

      iex> clock = Ertime.open()
      iex> Ertime.with(clock, fn -> :ertime.send_after(1_000, self(), :late) end)
      iex> {Ertime.advance(clock, 999), Ertime.advance(clock, {1, :millisecond})}
      {0, 1}
  """
  @spec advance(clock(), duration() | :until_idle) :: non_neg_integer()
  @spec advance(clock(), :auto | :by_hand) :: :ok
  defdelegate advance(clock, duration), to: :ertime

  @doc "As `advance/2`, of the clock that the process sees."
  @spec advance(duration() | :until_idle) :: non_neg_integer()
  defdelegate advance(duration), to: :ertime

  @doc """
  Lets the OS system clock leap, forward or back. The runtime checks it at once.

      iex> clock = Ertime.open(os_time: ~U[2030-01-01 00:00:00Z])
      iex> Ertime.warp(clock, {-1, :hour})
      :ok
      iex> Ertime.with(clock, &Ertime.utc_now/0)
      ~U[2029-12-31 23:00:00.000000Z]
  """
  @spec warp(clock(), duration()) :: :ok
  defdelegate warp(clock, by), to: :ertime

  @doc "As `warp/2`, of the clock that the process sees."
  @spec warp(duration()) :: :ok
  defdelegate warp(by), to: :ertime

  @doc """
  As `warp/2`. With `check: false` the runtime notices the leap when it checks the clock next, within a minute, as it
  does in production.
  """
  @spec warp(clock(), duration(), keyword()) :: :ok
  defdelegate warp(clock, by, options), to: :ertime

  @doc "Waits until the processes of the clock rest, and moves nothing."
  @spec rest(clock()) :: :ok
  defdelegate rest(clock), to: :ertime

  @doc """
  A process that the test didn't start, as one of the application, sees the clock until that is closed, and so do those
  below it. It is given as for `GenServer.call/2`: a pid, a name, `{:global, name}` or `{:via, module, name}`.

      setup %{clock: clock} do
        Ertime.allow(clock, MyApp.Cache)
      end

  A process can see one clock at a time, so tests that share one can't run side by side.
  """
  @spec allow(clock(), GenServer.server()) :: :ok
  defdelegate allow(clock, process), to: :ertime

  @doc "From now on the OS system clock is fast by so many parts per million; with 0 it drifts no longer."
  @spec drift(clock(), number()) :: :ok
  defdelegate drift(clock, parts_per_million), to: :ertime

  @doc """
  The calling process uses the clock, or with `:real` the runtime's, and with `:undefined` it has none of its own.
  Answers what it used before. (`use(:otp)` is `transform(:otp)`.)

      iex> clock = Ertime.open(start: 0)
      iex> Ertime.use(clock)
      :undefined
      iex> Ertime.use(:real) == clock
      true
  """
  @spec use(clock() | :real | :undefined) :: clock() | :real | :undefined
  @spec use(:otp | [module()]) :: :ok | {:error, [{module(), term()}]}
  defdelegate use(clock), to: :ertime

  @doc """
  Turns loaded modules, so that their calls see the clock of a test: a list of modules or applications, all of an
  application, or with `:otp` those that GenServer, Task, Supervisor and the rest, DateTime, NaiveDateTime, Date and Time
  need. What was turned is kept in `_build`, so the next run takes less time.

  It holds for the whole node; processes without a clock see the runtime's as before. It can be called again. Answers
  `:ok`, or `{:error, [{module, reason}]}`.

      iex> Ertime.transform([:calendar])
      :ok
  """
  @spec transform(:otp | atom() | [module() | atom()]) :: :ok | {:error, [{module(), term()}]}
  defdelegate transform(modules), to: :ertime

  @doc """
  Which modules of the project see the clock of a test, and which call functions about time and don't, since they weren't
  turned. The latter are told once, by a warning, when a clock is opened.
  """
  @spec report() :: %{turned: [module()], unturned: [module()]}
  defdelegate report(), to: :ertime

  @doc "Takes `transform/1` back. A module whose code some process can't leave stays turned, as those of `:proc_lib` do."
  @spec untransform(:otp | atom() | [module() | atom()]) :: :ok
  defdelegate untransform(modules), to: :ertime

  @doc """
  Runs a test in a process and under a clock of its own: opens the clock, calls the function, and closes it, whatever
  happens. Answers what the function does, and raises what it raises. In ExUnit `Ertime.Case` is at hand.

  The options are those of `open/1`; `limit:` is 60,000 milliseconds by default. With `schedule:` the faults of a list
  happen, as `seeds/3` prints them.

      iex> Ertime.test([advance: :auto], fn _clock ->
      ...>   :ertime.sleep(86_400_000)
      ...>   :a_day_later
      ...> end)
      :a_day_later
  """
  @spec test(keyword(), (clock() -> result)) :: result when result: term()
  def test(options \\ [], fun), do: :ertime.test(options(options), fun)

  @doc """
  Runs a test under the clocks of many seeds, each with faults of time that its seed draws. In ExUnit `Ertime.Case` is at
  hand, whose documentation has the options.

      iex> Ertime.seeds(20, [faults: [:silent, stall: 20_000], over: {10, :minute}], fn _clock ->
      ...>   start = :ertime.monotonic_time(:millisecond)
      ...>   :ertime.sleep(600_000)
      ...>   true = :ertime.monotonic_time(:millisecond) - start >= 600_000
      ...> end)
      :ok
  """
  @spec seeds(
          pos_integer() | {integer(), integer()} | [integer()],
          keyword(),
          (clock() -> term())
        ) :: :ok
  def seeds(seeds, options, fun), do: :ertime.seeds(seeds, Map.new(options), fun)

  @doc """
  Calls a function with the process using the clock.

      iex> Ertime.with(Ertime.open(start: 0), &:ertime.monotonic_time/0)
      0
  """
  @spec with(clock(), (() -> result)) :: result when result: term()
  defdelegate with(clock, fun), to: :ertime

  @doc "All processes that see no other clock use this one; with `:none` no longer."
  @spec use_everywhere(clock() | :none) :: :ok
  defdelegate use_everywhere(clock), to: :ertime

  @doc """
  The clock that the process sees, or `:none`.

      iex> Ertime.clock()
      :none
  """
  @spec clock() :: clock() | :none
  defdelegate clock(), to: :ertime

  @doc """
  What the clock tells at one moment, and what is armed: a map to be printed where a test fails.

      iex> clock = Ertime.open(start: 0)
      iex> Ertime.with(clock, fn -> :ertime.send_after(1_000, self(), :late) end)
      iex> [%{left: left}] = Ertime.info(clock).timers
      iex> left
      1000
  """
  @spec info(clock()) :: map()
  defdelegate info(clock), to: :ertime

  @doc "As `info/1`, of the clock that the process sees."
  @spec info() :: map()
  defdelegate info(), to: :ertime

  @doc """
  The system time of the clock that the process sees, as a `DateTime` of UTC.

      iex> Ertime.with(Ertime.open(), &Ertime.utc_now/0)
      ~U[2026-01-01 00:00:00.000000Z]
  """
  @spec utc_now() :: DateTime.t()
  def utc_now, do: DateTime.from_unix!(:ertime.system_time(:microsecond), :microsecond)

  @doc ~S"""
  Runs a scenario, as the program `ertime run` does, and answers its transcript, a line for each reply.

  It needs the library `ertime_text`: where the package was built without it, the error `{:no_library, :ertime_text}` is
  raised.

      iex> Ertime.run_scenario(~s({"format":1,"first":[0,0],"ops":[["tick",5000000,5000000],["time"]]}))
      {:ok, "tick 5000000\ntime 5000000\nend 5000000\n"}
      iex> Ertime.run_scenario("")
      {:error, {:refused, "scenario:1:1: expected a value here\n"}}
  """
  @spec run_scenario(iodata()) :: {:ok, transcript :: binary()} | {:error, reason()}
  defdelegate run_scenario(scenario), to: :ertime

  @doc ~S"""
  Judges a history, as the program `ertaudit` does: how many entries are legal, or which line is the first that isn't, with
  the condition that it breaks. It needs `ertime_text`, as `run_scenario/1`.

      iex> settings = "settings no false 0 1 1 1 1 0 0\n"
      iex> Ertime.judge([settings, "k c0 tick 0 1000000 plain 1000000\n"])
      {:ok, {:legal, 1}}
      iex> Ertime.judge([settings, "k c0 tick -1 0 plain 0\n"])
      {:illegal, 2, "history:2: k c0 tick -1 0 plain 0: its reading isn't valid\n"}
  """
  @spec judge(iodata()) ::
          {:ok, {:legal, entries :: non_neg_integer()}}
          | {:illegal, line :: pos_integer(), message :: binary()}
          | {:error, reason()}
  defdelegate judge(history), to: :ertime
end
