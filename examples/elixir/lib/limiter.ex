defmodule Limiter do
  @moduledoc """
  Lets so many calls pass in each period. With the clock `:monotonic` it is right. With `:os` it has a fault: after a leap of the
  system clock it lets twice as many pass, or none until the clock has caught up.
  """
  use GenServer

  def start_link(options), do: GenServer.start_link(__MODULE__, options)
  def passes?(limiter), do: GenServer.call(limiter, :passes?)

  @impl true
  def init(options) do
    clock = Keyword.fetch!(options, :clock)
    {:ok, %{clock: clock, most: options[:most], period: options[:period], began: now(clock), count: 0}}
  end

  @impl true
  def handle_call(:passes?, _from, limiter) do
    now = now(limiter.clock)

    cond do
      now - limiter.began >= limiter.period -> {:reply, true, %{limiter | began: now, count: 1}}
      limiter.count < limiter.most -> {:reply, true, %{limiter | count: limiter.count + 1}}
      true -> {:reply, false, limiter}
    end
  end

  defp now(:monotonic), do: System.monotonic_time(:millisecond)
  defp now(:os), do: System.os_time(:millisecond)
end
