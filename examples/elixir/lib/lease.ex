defmodule Lease do
  @moduledoc """
  A lease by time: who holds it keeps it until it ends, and renews it before. It says nothing of clocks: the time is
  `System.monotonic_time/1`, and a timer is `Process.send_after/3`.
  """
  use GenServer

  def start_link(options), do: GenServer.start_link(__MODULE__, options)
  def held?(lease), do: GenServer.call(lease, :held?)
  def renew(lease), do: GenServer.call(lease, :renew)

  @impl true
  def init(options) do
    {:ok,
     renewed(%{
       length: Keyword.fetch!(options, :length),
       tell: options[:tell],
       timer: nil,
       ends: nil
     })}
  end

  @impl true
  def handle_call(:held?, _from, lease) do
    {:reply, System.monotonic_time(:millisecond) < lease.ends, lease}
  end

  def handle_call(:renew, _from, lease) do
    Process.cancel_timer(lease.timer)
    {:reply, :ok, renewed(lease)}
  end

  @impl true
  def handle_info(:ended, lease) do
    if lease.tell, do: send(lease.tell, {:lease_ended, System.system_time(:second)})
    {:noreply, lease}
  end

  defp renewed(lease) do
    timer = Process.send_after(self(), :ended, lease.length)
    %{lease | timer: timer, ends: System.monotonic_time(:millisecond) + lease.length}
  end
end
