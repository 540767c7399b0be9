defmodule FaultsTest do
  # Faults of time by seed: each right version passes all seeds, each wrong one is found, and made small.
  use ExUnit.Case
  # The environment may ask for more seeds, and for processes that keep schedulers busy beside: EXAMPLE_SEEDS=2000 EXAMPLE_BUSY=4.
  use Ertime.Case, seeds: String.to_integer(System.get_env("EXAMPLE_SEEDS", "50")), faults: [:silent]
  @moduletag :capture_log

  @hour 3_600_000
  @minute 60_000

  setup_all do
    for _ <- List.duplicate(:busy, String.to_integer(System.get_env("EXAMPLE_BUSY", "0"))) do
      spawn_link(fn ->
        Ertime.use(:real)
        burn()
      end)
    end

    :ok
  end

  defp burn do
    Enum.to_list(1..1_000)
    burn()
  end

  @tag timeout: :infinity
  test "a lease", do: lease(:monotonic)

  @tag timeout: :infinity
  @tag faults: [:late, stall: 5_000, pause: 5_000]
  test "a retry for so long", do: budget(:looks)

  @tag timeout: :infinity
  test "a limit of calls", do: limiter(:monotonic)

  @tag timeout: :infinity
  test "a cache", do: cache(:monotonic)

  @tag timeout: :infinity
  @tag faults: [:silent, :late]
  test "a timeout and its event", do: connection(:tolerant)

  for {name, wrong, faults} <- [
        {"a lease by system time", {:lease, :system}, [:silent]},
        {"a retry that sums its waits", {:budget, :sums}, [:late, stall: 5_000, pause: 5_000]},
        {"a limit by the system clock of the OS", {:limiter, :os}, [:silent]},
        {"a cache by system time", {:cache, :system}, [:silent]},
        {"a timeout that races with its event", {:connection, :strict}, [:silent, :late]}
      ] do
    @tag seeds: 0
    @tag timeout: 20_000
    @tag wrong: wrong
    test "#{name} is found", %{wrong: {name, how}} do
      test = fn _clock -> apply(__MODULE__, name, [how]) end
      options = [faults: unquote(faults), deterministic: true]
      assert {:failed, %{schedule: schedule, seed: seed}} = :ertime_seeds.check(200, options, test)
      assert is_integer(seed)
      assert length(schedule) in [1, 2]
      again = fn -> Ertime.test([advance: :auto, mode: :multi_time_warp, deterministic: true, schedule: schedule], test) end

      assert :raised ==
               (try do
                  again.()
                catch
                  _, _ -> :raised
                end)
    end
  end

  # As a seed's report has it: these faults, once.
  @tag schedule: [{1_000, {:leap, -3_600_000}}, {2_000, {:stall, 20_000}}]
  test "a lease under a schedule" do
    {:ok, grant} = Grant.start_link(clock: :monotonic, length: @hour)
    Process.sleep(@hour - 1)
    assert Grant.held?(grant)
  end

  # It is held for an hour, whatever the system clock does.
  def lease(clock) do
    {:ok, grant} = Grant.start_link(clock: clock, length: @hour)
    Process.sleep(@hour - 1)
    assert Grant.held?(grant)
    Process.sleep(1)
    refute Grant.held?(grant)
  end

  # No call after a minute.
  def budget(how) do
    ends = :ertime.monotonic_time(:millisecond) + @minute

    try_it = fn ->
      assert :ertime.monotonic_time(:millisecond) < ends
      :error
    end

    task = Task.async(fn -> Budget.run(how, try_it, @minute) end)
    assert :timeout == Task.await(task, :infinity)
  end

  # A call each second for some minutes: the first ten of each minute pass.
  def limiter(clock) do
    {:ok, limiter} = Limiter.start_link(clock: clock, most: 10, period: @minute)

    passed =
      for _ <- 1..200 do
        Process.sleep(1_000)
        Limiter.passes?(limiter)
      end

    assert passed == for(second <- 1..200, do: second <= 10 or (second >= 60 and rem(second, 60) < 10))
  end

  # A value is there for a minute, and no longer.
  def cache(clock) do
    {:ok, cache} = Cache.start_link(clock: clock, length: @minute)
    :ok = Cache.put(cache, :key, :value)
    Process.sleep(@minute - 1)
    assert {:ok, :value} == Cache.get(cache, :key)
    Process.sleep(1)
    assert :none == Cache.get(cache, :key)
  end

  # The answer comes just before the connection gives up: unless it is late.
  def connection(how) do
    peer =
      spawn_link(fn ->
        connection = receive do: ({:connect, from} -> from)
        Process.sleep(4_990)
        send(connection, :connected)
      end)

    {:ok, connection} = Connection.start_link({how, peer})
    Process.sleep(10_000)
    assert Connection.state(connection) in [:connected, :given_up]
  end
end
