defmodule Connection do
  @moduledoc """
  Asks another process for a connection, and gives up after five seconds. The answer may come a moment later all the same:
  `:tolerant` lets it pass, `:strict` doesn't expect it, and ends by it.
  """
  @behaviour :gen_statem

  @patience 5_000

  def start_link({how, peer}), do: :gen_statem.start_link(__MODULE__, {how, peer}, [])
  def state(connection), do: :gen_statem.call(connection, :state)

  @impl true
  def init({how, peer}) do
    send(peer, {:connect, self()})
    {:ok, :connecting, how, {:state_timeout, @patience, :give_up}}
  end

  @impl true
  def callback_mode, do: :handle_event_function

  @impl true
  def handle_event(:info, :connected, :connecting, how), do: {:next_state, :connected, how}
  def handle_event(:state_timeout, :give_up, :connecting, how), do: {:next_state, :given_up, how}
  def handle_event(:info, :connected, :given_up, :tolerant), do: :keep_state_and_data
  def handle_event({:call, from}, :state, state, _), do: {:keep_state_and_data, {:reply, from, state}}
end
