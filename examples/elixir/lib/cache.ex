defmodule Cache do
  @moduledoc """
  Keeps values for so many milliseconds. With the clock `:monotonic` it is right. With `:system` it has a fault: after a leap of
  the system clock it has lost what is new, or gives out what is old.
  """
  use GenServer

  def start_link(options), do: GenServer.start_link(__MODULE__, options)
  def put(cache, key, value), do: GenServer.call(cache, {:put, key, value})
  def get(cache, key), do: GenServer.call(cache, {:get, key})

  @impl true
  def init(options) do
    {:ok, %{clock: Keyword.fetch!(options, :clock), length: options[:length], kept: %{}}}
  end

  @impl true
  def handle_call({:put, key, value}, _from, cache) do
    {:reply, :ok, put_in(cache.kept[key], {value, now(cache.clock) + cache.length})}
  end

  def handle_call({:get, key}, _from, cache) do
    now = now(cache.clock)

    case cache.kept do
      %{^key => {value, ends}} when now < ends -> {:reply, {:ok, value}, cache}
      _ -> {:reply, :none, cache}
    end
  end

  defp now(:monotonic), do: System.monotonic_time(:millisecond)
  defp now(:system), do: System.system_time(:millisecond)
end
