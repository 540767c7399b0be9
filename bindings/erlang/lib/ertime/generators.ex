defmodule Ertime.Generators do
  @moduledoc """
  Generators of schedules of faults (`:ertime_faults`) for StreamData, which makes them smaller itself.

      check all schedule <- Ertime.Generators.schedule(faults: [:silent], over: 3_600_000) do
        Ertime.test([advance: :auto, mode: :multi_time_warp, schedule: schedule], fn _clock -> ... end)
      end

  StreamData is called where it is found when a generator is asked for; it is no dependency of this package. For PropEr there is
  `:ertime_proper`.
  """

  @doc "A generator of schedules, with the options of `:ertime_proper.schedule/1`."
  @spec schedule(keyword()) :: term()
  def schedule(options \\ []) do
    unless Code.ensure_loaded?(StreamData), do: raise(ArgumentError, "StreamData is not there: add it to the dependencies of the tests")
    {kinds, over} = :ertime_proper.kinds(Map.new(options))
    call(:list_of, [call(:one_of, [Enum.map(kinds, &entry(&1, over))])])
  end

  defp entry({:order, _}, _), do: tuple([constant(0), tuple([constant(:order), number(1, 1000)])])
  defp entry({:serial, _}, _), do: constant({0, :serial})
  defp entry(kind, over), do: tuple([number(0, over), fault(kind)])

  defp fault({:finalize, _}), do: constant(:finalize)

  defp fault({name, most}) when name in [:leap, :late_check, :drift],
    do: tuple([constant(name), number(-most, most)])

  defp fault({:late, most}), do: tuple([constant(:late), number(1, 4), number(1, most)])
  defp fault({:pause, most}), do: tuple([constant(:pause), number(1, 20), number(1, most)])
  defp fault({name, most}), do: tuple([constant(name), number(1, most)])

  defp tuple(generators), do: call(:tuple, [List.to_tuple(generators)])
  defp constant(term), do: call(:constant, [term])
  defp number(least, most), do: call(:integer, [least..most])

  defp call(name, arguments), do: apply(StreamData, name, arguments)
end
