defmodule Ertime.Case do
  @moduledoc """
  A clock for each test of ExUnit, also with `async: true`.

      defmodule MyApp.LeaseTest do
        use ExUnit.Case, async: true
        use Ertime.Case, mode: :multi_time_warp

        test "a lease ends after an hour", %{clock: clock} do
          lease = MyApp.Lease.take()
          Ertime.advance(clock, {1, :hour})
          refute MyApp.Lease.held?(lease)
        end
      end

  The options are those of `Ertime.open/1`. The test uses the clock, as do the processes that it starts; a tag
  `clock: [...]` of a test adds options to those of the module. The clock is closed when the test's process has ended.
  With `advance: :auto` the time goes on by itself; a deadlock, or `limit:` milliseconds of real time, end the test.

  The calls of the test module itself are turned too, before its first test: `System.monotonic_time/0`,
  `Process.send_after/3` or `:os.system_time/0` see the clock. A `receive .. after` in it stays real, and so do
  `assert_receive` and `refute_receive`, which wait for what happens.

  ## Faults by seed

  With `seeds:` each test runs once without a fault, and then once for each seed, with faults of time that the seed draws
  (`:ertime.seeds/3` and `:ertime_faults`). Time goes on by itself then, unless the options say otherwise.

      use Ertime.Case, seeds: 200, faults: [:silent, late: 50, pause: 20_000]

      @tag over: {10, :minute}
      test "one writer at a time" do
        ...
      end

      @tag schedule: [{56_465, {:pause, Store, 3_822}}]
      test "the store stands still between the renewal and the write" do
        ...
      end

  - `seeds` is a count, `{from, to}` or a list. A count begins at ExUnit's seed, so that `mix test --seed 42` runs the same ones
    again. `ERTIME_SEED=17` runs that one.
  - `faults`, `over`, `most`, `always`, `deterministic` and `shrink` are those of `:ertime.seeds/3`.
  - Each of these is an option of the module or a tag of a test. A tag `schedule:` runs a test once, with these faults; a tag
    `seeds: 0` runs it once without any.
  - The setups of the module run for each seed, and what was started by `start_supervised` ends after it.

  A seed that fails is made small, printed as terms to paste, and raised as what the test raises.
  """

  @own [:seeds, :faults, :over, :most, :deterministic, :shrink]
  @tags [:schedule, :always | @own]
  @defaults [advance: :auto, mode: :multi_time_warp, correction: true]

  defmacro __using__(options) do
    quote do
      # Modules of tests have none otherwise, and are turned by it.
      @compile :debug_info
      @after_compile Ertime.Case

      setup_all do
        Ertime.Case.turn(__MODULE__)
      end

      @before_compile Ertime.Case

      @doc false
      def __ertime__, do: unquote(options)

      setup context do
        Ertime.Case.setup(__ertime__(), context)
      end
    end
  end

  @doc false
  defmacro __before_compile__(env) do
    for %{name: name} <- Module.get_attribute(env.module, :ex_unit_tests) || [] do
      quote do
        defoverridable [{unquote(name), 1}]

        def unquote(name)(context) do
          Ertime.Case.run(__MODULE__, __ertime__(), context, fn context -> super(context) end)
        end
      end
    end
  end

  @doc false
  def __after_compile__(%{module: module}, bytecode), do: :persistent_term.put({__MODULE__, module}, bytecode)

  # Tests may begin before all of what follows the compilation of their module has been done.
  @doc false
  def turn(module) do
    case :persistent_term.get({__MODULE__, module}, nil) do
      nil ->
        Process.sleep(1)
        turn(module)

      :turned ->
        :ok

      bytecode ->
        :persistent_term.put({__MODULE__, module}, :turned)

        with {:error, reason} <- :ertime_load.load_calls(module, bytecode) do
          raise "#{inspect(module)} can't be turned: #{inspect(reason)}"
        end
    end
  end

  @doc false
  def setup(options, context) do
    {clock, _} =
      case Process.get({__MODULE__, :under}) do
        nil ->
          :ertime_test.set_up(plain(options, context), self())

        {under, parent} ->
          {clock, driver} = :ertime_test.set_up(under, parent)
          send(parent, {__MODULE__, self(), clock, driver})
          {clock, driver}
      end

    ExUnit.Callbacks.on_exit(fn -> :ertime_test.tear_down(clock) end)
    # The clock takes the place of the tag, which is needed again.
    %{clock: clock, ertime: tag(context)}
  end

  @doc false
  def run(module, options, context, body) do
    case asked(options, context) do
      nil ->
        shown(body, context)

      {seeds, options, milliseconds} ->
        # Its clock, and what the setups have started, are for a run that doesn't come.
        :ertime_test.tear_down(context.clock)
        stop_supervised()
        explored(:ertime_seeds.explore(seeds, options, &once(module, context, body, &1), milliseconds))
    end
  end

  # What the clock has seen of a test that fails is printed.
  defp shown(body, context) do
    body.(context)
  catch
    kind, reason ->
      show(context, reason)
      :erlang.raise(kind, reason, __STACKTRACE__)
  end

  defp show(%{clock: clock} = context, reason) do
    :ertime_seen.failed(clock, name(context), reason, :ertime_drive.done(clock))
  end

  defp name(context), do: "#{inspect(context.module)}.#{context.test}" |> to_charlist()

  defp explored({:passed, _, _}), do: :ok

  defp explored({:failed, %{raised: {kind, reason, stack}} = report}) do
    IO.write(:stderr, :ertime_seeds.told(report))
    :erlang.raise(kind, reason, stack)
  end

  # The seeds, the options and the real milliseconds that they may take, or nothing where the test runs once.
  defp asked(options, context) do
    own = Keyword.merge(options, tags(context))

    case {own[:schedule], own[:seeds], :ertime_seeds.asked()} do
      {schedule, _, _} when schedule != nil -> nil
      {_, 0, _} -> nil
      {_, nil, :none} -> nil
      {_, nil, {seeds, faults}} -> {seeds, Map.put(clock_options(own, context), :faults, faults), :suite}
      {_, _, {[seed], _}} -> {[seed], explicit(own, context), :infinity}
      {_, count, _} when is_integer(count) -> {from_base(count), explicit(own, context), :infinity}
      {_, seeds, _} -> {seeds, explicit(own, context), :infinity}
    end
  end

  defp from_base(count) do
    base = ExUnit.configuration()[:seed] || 0
    {base + 1, base + count}
  end

  defp tags(context), do: context |> Map.take(@tags) |> Map.to_list()

  defp plain(options, context) do
    own = Keyword.merge(options, tags(context))
    clock = clock_options(Keyword.drop(own, @own), context)

    cond do
      asked(options, context) -> Map.put(clock, :advance, :by_hand)
      own[:schedule] || own[:seeds] -> Map.merge(Map.new(@defaults), clock)
      true -> clock
    end
  end

  defp explicit(own, context), do: Map.merge(Map.new(@defaults), clock_options(own, context))

  defp clock_options(own, context) do
    own |> Keyword.delete(:seeds) |> Keyword.merge(tag(context)) |> Ertime.options()
  end

  defp tag(%{ertime: options}), do: options
  defp tag(context), do: Map.get(context, :clock, [])

  defp stop_supervised do
    {:ok, supervisor} = ExUnit.fetch_test_supervisor()
    for {id, _, _, _} <- Supervisor.which_children(supervisor), do: ExUnit.Callbacks.stop_supervised(id)
  end

  # A run of a test in a process of its own, as ExUnit has one for each test: with its setups, its supervisor and what is to be
  # done on its exit.
  defp once(module, context, body, under) do
    parent = self()
    before = :ertime_test.before()

    {pid, monitor} =
      spawn_monitor(fn ->
        if under[:output], do: Process.group_leader(self(), under[:output])
        ExUnit.OnExitHandler.register(self())
        Process.put({__MODULE__, :under}, {Map.delete(under, :output), parent})
        exit({:shutdown, {__MODULE__, outcome(module, context, body, under[:show])}})
      end)

    raised =
      receive do
        {:DOWN, ^monitor, _, _, {:shutdown, {__MODULE__, outcome}}} -> outcome
        {:DOWN, ^monitor, _, _, reason} -> {:raised, :exit, reason, []}
      end

    {clock, driver} =
      receive do
        {__MODULE__, ^pid, clock, driver} -> {clock, driver}
      after
        0 -> {:none, :none}
      end

    done = :ertime_test.done(driver)
    left = ExUnit.OnExitHandler.run(pid, 60_000)
    if clock != :none, do: :ertime_test.clear(clock, pid, under[:output], before)
    result(raised, left, done)
  end

  defp result({:returned, value}, :ok, done), do: {:returned, value, done}
  defp result({:returned, _}, {kind, reason, stack}, done), do: {:raised, kind_of(kind), reason, stack, done}
  defp result({:raised, kind, reason, stack}, _, done), do: {:raised, kind, reason, stack, done}

  defp kind_of(kind) when kind in [:error, :exit, :throw], do: kind
  defp kind_of(_), do: :exit

  defp outcome(module, context, body, shows) do
    context = module.__ex_unit__(:setup, context)
    {:returned, if(shows, do: shown(body, context), else: body.(context))}
  catch
    kind, reason -> {:raised, kind, reason, __STACKTRACE__}
  end
end
