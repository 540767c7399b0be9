# The generators of schedules. Where StreamData isn't there a stand-in takes its place, which has those five of its functions that
# are called, and draws from them.
unless Code.ensure_loaded?(StreamData) do
  defmodule StreamData do
    def constant(term), do: fn -> term end
    def integer(range), do: fn -> Enum.random(range) end
    def tuple(generators), do: fn -> generators |> Tuple.to_list() |> Enum.map(& &1.()) |> List.to_tuple() end
    def one_of(generators), do: fn -> Enum.random(generators).() end
    def list_of(generator), do: fn -> for _ <- 1..Enum.random(1..8), do: generator.() end
    def draw(generator, count), do: for(_ <- 1..count, do: generator.())
  end
end

defmodule GeneratorsTest do
  use ExUnit.Case

  defp drawn(options, count) do
    generator = Ertime.Generators.schedule(options)

    if function_exported?(StreamData, :draw, 2),
      do: apply(StreamData, :draw, [generator, count]),
      else: Enum.take(generator, count)
  end

  test "what is drawn is a schedule, with each kind of fault" do
    for options <- [[], [faults: [:silent, :loud], over: {2, :hour}], [mode: :single_time_warp, faults: [:finalize, :stall]]] do
      clock = Map.new(Keyword.take(options, [:mode]))
      schedules = drawn(options, 1_000)
      for schedule <- schedules, do: :ertime_faults.check(schedule, Map.merge(%{mode: :multi_time_warp, correction: true}, clock), [])

      {kinds, over} = :ertime_proper.kinds(Map.new(options))
      entries = List.flatten(schedules)
      assert entries |> Enum.map(fn {_, fault} -> if is_tuple(fault), do: elem(fault, 0), else: fault end) |> Enum.uniq() |> Enum.sort() == kinds |> Keyword.keys() |> Enum.sort()
      assert Enum.all?(entries, fn {at, _} -> at in 0..over end)
    end
  end

  test "a lease by monotonic time is held under each of them" do
    for schedule <- drawn([faults: [:silent], over: {1, :hour}], 50) do
      Ertime.test([advance: :auto, mode: :multi_time_warp, schedule: schedule, seen: false], fn _clock ->
        ends = :ertime.monotonic_time(:millisecond) + 3_600_000
        :ertime.sleep(3_599_999)
        assert :ertime.monotonic_time(:millisecond) == ends - 1
      end)
    end
  end

  test "an option that doesn't exist is refused" do
    assert_raise ArgumentError, ~r/the options of a generator are faults/, fn -> Ertime.Generators.schedule(seeds: 3) end
  end
end
