defmodule Grant do
  @moduledoc """
  A lease by one clock or another. With `:monotonic` it is right. With `:system` it has a fault: it takes the system time for an
  interval, and is lost, or kept for ever, when the system clock leaps.
  """
  use GenServer

  def start_link(options), do: GenServer.start_link(__MODULE__, options)
  def held?(grant), do: GenServer.call(grant, :held?)

  @impl true
  def init(options) do
    clock = Keyword.fetch!(options, :clock)
    {:ok, %{clock: clock, ends: now(clock) + options[:length]}}
  end

  @impl true
  def handle_call(:held?, _from, grant), do: {:reply, now(grant.clock) < grant.ends, grant}

  defp now(:monotonic), do: System.monotonic_time(:millisecond)
  defp now(:system), do: System.system_time(:millisecond)
end
